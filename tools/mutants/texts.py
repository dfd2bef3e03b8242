"""The mutants of a crate, and what a round of them changes, by the rules of tools/mutants/try."""
import collections
import os
import re
from types import SimpleNamespace

import rattle_kit
from rattle_sources import FUNCTION, ROOT, files_below, functions_of, module_of, read, types_of

# The body and the proof of a function that a round leaves out.
NO_BODY = "unreachable!()"
HOLE = """use {whole}.Statement.{{statement}}

pub {name}_spec : {{M : Type 1}} → statement M
{name}_spec = ?
"""

# A function that a round leaves out, with its file and the folder of its proof.
LeftOut = collections.namedtuple("LeftOut", "file function place")


class Change:
    """A pair of texts of a mutant: in a file, the new one stands in place of the old one, which is
    there once, or once within the function that is named."""

    def __init__(self, file, function, old, new):
        self.file, self.function, self.old, self.new = file, function, old, new

    def place_in(self, text):
        """Returns where the old text is, and the fault where it is not there just once."""
        first, last = 0, len(text)
        if self.function:
            named = [it for it in functions_of(text) if name_of(it) == self.function]
            if len(named) != 1:
                return None, f"{self.file} has {len(named)} functions {self.function}, and not one"
            lines = text.split("\n")
            first, last = (sum(len(it) + 1 for it in lines[:end])
                           for end in (named[0].first - 1, named[0].last))
        count = text.count(self.old, first, last)
        if count != 1:
            where = self.function or self.file
            return None, f"an 'old:' text is in {where} {count} times, and not once"
        return text.find(self.old, first), None


def name_of(function):
    """Returns how `fn:` names a function: by its name, with that of its type or impl before it."""
    return f"{function.owner}::{function.name}" if function.owner else function.name


def read_mutant(path):
    """Returns the changes of a mutant, and lines of no kind."""
    changes, unread, file, function, old = [], [], None, None, None
    for line in filter(None, read(path).split("\n")):
        word, _, rest = line.partition(":")
        if line.startswith("file: "):
            file, function = rest.strip(), None
        elif line.startswith("fn: "):
            function = rest.strip()
        elif line.startswith("old: "):
            old = rest[1:]
        elif word == "new":
            changes.append(Change(file, function, old, rest.removeprefix(" ")))
        else:
            unread.append(line)
    return changes, unread


def texts_of_mutant(path, folder):
    """Returns the files that a mutant changes, by their paths in the crate's folder, with their new
    texts, and the fault where it can't be applied: what the kit's own function answers, which
    knows no `fn:`."""
    changes, unread = read_mutant(path)
    if unread:
        return None, f"no line of a mutant: {unread[0]}"
    if not changes:
        return None, "it has no 'old:' and 'new:' pair"
    texts = {}
    for it in changes:
        is_below = it.file and re.match("(?:src|specs|proofs)/", it.file) and ".." not in it.file
        if not is_below or not it.old:
            return None, "before a 'new:' line are a 'file:' line, below src or such, and 'old:'"
        if not os.path.isfile(f"{folder}/{it.file}"):
            return None, f"there is no file {it.file}"
        if it.old == it.new:
            return None, "a text is replaced by itself"
        text = texts.get(it.file) or read(f"{folder}/{it.file}")
        at, fault = it.place_in(text)
        if fault:
            return None, fault
        texts[it.file] = text[:at] + it.new + text[at + len(it.old) :]
    return texts, None


class Mutant:
    """A mutant of a crate, and the one function whose body it changes, if there is one."""

    def __init__(self, path, folder, is_admitted):
        self.name, self.path = os.path.basename(path)[: -len(".edit")], path
        self.is_admitted, self.file, self.function = is_admitted, None, None
        self.changes = read_mutant(path)[0]
        self.fault = texts_of_mutant(path, folder)[1]
        files = {it.file for it in self.changes}
        if not self.fault and len(files) == 1 and next(iter(files)).startswith("src/"):
            self.file = files.pop()
            self.function = self.one_function(f"{folder}/{self.file}")

    def one_function(self, source):
        """Returns the number and the cycle of the one function whose body the mutant changes."""
        text, touched = read(source), set()
        functions = functions_of(text)
        for it in self.changes:
            at, fault = it.place_in(text)
            line = text[:at].count("\n") + 1
            inside = [at for at, it in enumerate(functions) if it.body <= line <= it.last]
            # (code may be put after a function's first line; another such line is a contract)
            is_of_body = not re.search(r"\bfn \w", it.old + it.new) or it.new.startswith(it.old)
            if fault or not inside or not is_of_body:
                return None
            touched.add(inside[-1])
        number = touched.pop() if len(touched) == 1 else None
        return None if number is None else (number, functions[number].cycle)

    def key(self):
        """Of two mutants with one key only one takes part in a round."""
        number, cycle = self.function
        return cycle or (self.file, number)

    def spans(self, text):
        """Returns what the mutant changes in the text as it is: each start, end and new text."""
        places = [(it.place_in(text)[0], it.old, it.new) for it in self.changes]
        return [(at, at + len(old), new) for at, old, new in places]


def mutants_of(crate):
    """Returns the crate's mutants, those that contracts admit too, and what is no mutant, or no
    longer fits its source: each path with the reason."""
    here = SimpleNamespace(folder=f"{ROOT}/crates/{crate.name}")
    good, others = rattle_kit.load_rt().edits_of(here)
    folder = f"{ROOT}/tools/mutants/admitted/{crate.name}"
    names = sorted(os.listdir(folder)) if os.path.isdir(folder) else []
    mutants = [Mutant(it, crate.folder, False) for it in good]
    mutants += [Mutant(f"{folder}/{it}", crate.folder, True) for it in names]
    bad = [(it, "it is no mutant") for it in others]
    bad += [(it.path, it.fault) for it in mutants if it.fault]
    return [it for it in mutants if not it.fault], bad


def without_body(text, function):
    """Returns what puts `unreachable!()` in place of a function's body and keeps its lines: the
    start, the end and the new text. It is None where the body decides what the function answers,
    or has another function, or is on one line."""
    lines = text.split("\n")
    head, inside = lines[: function.body], lines[function.body : function.last - 1]
    signature = " ".join(head[function.first - 1 :])
    is_plain = head[-1].endswith("{") and lines[function.last - 1].strip() == "}"
    if not inside or not is_plain or re.search("-> impl |const fn ", signature):
        return None
    if any(FUNCTION.match(it) for it in inside):
        return None
    start = sum(len(it) + 1 for it in head)
    end = start + sum(len(it) + 1 for it in inside)
    indent = re.match(" *", head[-1])[0]
    return start, end, f"{indent}    {NO_BODY}" + "\n" * len(inside)


def place_of(function, path, modules):
    """Returns where the prover looks for a function's proof, below proofs, or None where that is
    not known. It names a type's own method by the module of the type, one of a trait by that of
    the impl, and those of types from other crates each in its own way."""
    owner = function.proved_owner
    is_named = owner is not None and re.fullmatch(r"\w*", owner)
    if not is_named or owner and not any(owner.startswith(it) for it in modules):
        return None
    return "/".join(filter(None, [modules.get(owner, module_of(path)), owner, function.name]))


def modules_of_types(crate):
    """Returns the module in which each type of a crate is."""
    folder = f"{crate.folder}/src"
    files = [(os.path.relpath(it, crate.folder), read(it)) for it in files_below(folder, ".rt")]
    kinds = ("struct", "enum")
    return {it: module_of(path) for path, text in files for it in types_of(text, kinds)}


def place_of_proof(crate, path, function):
    """Returns where the prover looks for the proof of a function of this source, as `place_of`."""
    return place_of(function, path, modules_of_types(crate))


def left_out_of(crate, mutants):
    """Returns the functions that no mutant changes, but those whose place is not known."""
    changed, folder, found = {it.key() for it in mutants}, crate.folder, []
    sources = {os.path.relpath(it, folder): read(it) for it in files_below(f"{folder}/src", ".rt")}
    modules = modules_of_types(crate)
    for path, text in sources.items():
        for number, it in enumerate(functions_of(text)):
            place = place_of(it, path, modules)
            if place and not (it.is_generic or it.cycle or (path, number) in changed):
                found.append(LeftOut(path, it, f"proofs/{place}"))
    return found


def holes_of(crate, left_out):
    """Returns the folders of their proofs, each with the proof that is put there."""
    whole = lambda it: f"Rattle.{crate.name}.{it.place.replace('/', '.')}"
    return {it.place: HOLE.format(whole=whole(it), name=it.function.name) for it in left_out}


def texts_with(crate, mutants, left_out=()):
    """Returns the files that these mutants change, each with all its mutants, and those of
    functions that are left out, without their bodies."""
    files, texts = {it.file for it in (*mutants, *left_out)}, {}
    for file in files:
        text = read(f"{crate.folder}/{file}")
        spans = [span for it in mutants if it.file == file for span in it.spans(text)]
        empty = [without_body(text, it.function) for it in left_out if it.file == file]
        for first, last, new in sorted([*spans, *filter(None, empty)], reverse=True):
            text = text[:first] + new + text[last:]
        texts[file] = text
    return texts
