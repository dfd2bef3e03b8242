"""The record of mutants: which came to what they must when they were last tried, each beside the
same sources (docs/maintaining/GATE.md).

A line is a crate and a sum for each of its mutants. The sum is of all that the verdict follows
from: the kit's logic, the mutant, the function that it changes with the files of its proof, and
what all functions of the crate rest on. That are the crate's sources without the bodies of other
functions, its definitions and lemmas, and of each library below what a crate above it reads, its
interface, definitions and lemmas. A body of another function has no part in it, since a function is
proved from its own body and the contracts of what it calls. Lines that are comments alone are left
out. So is the kit's name: another kit of the same logic may find proofs that this one does not, and
the tenth that each run tries anew would show it.

A mutant that came to anything else, or that was refused at a limit of the prover, is not in the
record, and so is tried again.
"""
import datetime
import os
import threading

from rattle_kit import sum_of, texts_of, without_comments
from rattle_sources import functions_of
from texts import place_of_proof, without_body

REFUSED, AT_A_LIMIT, NOT_REFUSED = "refused", "refused-at-a-limit", "not-refused"
HEAD = "# The mutants that came to what they must (docs/maintaining/GATE.md).\n"
# A run tries again one of so many parts of the record.
PARTS = 10
# How many digits of a sum are kept: enough that no two of a crate's mutants have the same.
DIGITS = 8


def verdict_of(is_refused, has_given_up):
    """Returns the word for a verdict."""
    if not is_refused:
        return NOT_REFUSED
    return AT_A_LIMIT if has_given_up else REFUSED


class Record:
    """The sums of a file, by their crates, and those of this run."""

    def __init__(self, path, logic):
        self.logic, self.libraries, self.known, self.new = logic, {}, {}, {}
        self.writing = threading.Lock()
        if os.path.isfile(path):
            with open(path, encoding="utf-8") as it:
                rows = [line.split() for line in it if not line.startswith("#")]
            self.known = {crate: set(sums) for crate, *sums in rows}
        self.seed = int(os.environ.get("SEED") or datetime.date.today().strftime("%Y%m%d"))

    def key_of(self, crate, mutant):
        """Returns the sum of a mutant, once the libraries below its crate are built."""
        with open(mutant.path, "rb") as it:
            text = it.read()
        own = sum_of_function(crate, mutant)
        return sum_of(self.sum_of_crate(crate), own, mutant.name, text)[:DIGITS]

    def has(self, crate, mutant):
        """Returns whether the record has it that the mutant came to what it must."""
        return self.key_of(crate, mutant) in self.known.get(crate.name, ())

    def is_due(self, place, count):
        """Returns whether the mutant at this place, of so many in all crates, is tried again though
        the record has it. The seed decides which tenth is: mutants that follow each other, since a
        round of few costs most of one of many."""
        return place * PARTS // count == self.seed % PARTS

    def note(self, crate, mutant):
        """Notes that a mutant came to what it must."""
        with self.writing:
            self.new.setdefault(crate.name, set()).add(self.key_of(crate, mutant))

    def count_new(self):
        """Returns how many sums of this run the file has not."""
        return sum(len(sums - self.known.get(crate, set())) for crate, sums in self.new.items())

    def write(self, path):
        """Writes the sums of this run, and those of crates that it did not try."""
        with self.writing:
            rows = {**self.known, **self.new}
            lines = [f"{crate} {' '.join(sorted(rows[crate]))}\n" for crate in sorted(rows)]
            os.makedirs(os.path.dirname(path), exist_ok=True)
            with open(path, "w", encoding="utf-8") as it:
                it.writelines([HEAD, *lines])

    def sum_of_crate(self, crate):
        """Returns the sum of what the verdicts on all functions of a crate follow from."""
        found = self.libraries.get((crate.name, "above"))
        if not found:
            # (which of the libraries below a line names does not matter, but which there are)
            kind = repr((crate.name, crate.is_static, sorted(it.name for it in crate.below())))
            libraries = sorted(crate.below(), key=lambda it: it.name)
            below = [self.sum_of_library(it) for it in libraries]
            sources = texts_of([f"{crate.folder}/src"], without_bodies)
            others = texts_of([f"{crate.folder}/specs"], without_comments)
            lemmas = [it for it in texts_of_proofs(crate) if os.sep not in it[0]]
            found = sum_of(self.logic, kind, repr(below), *sources, *others, repr(lemmas))
            self.libraries[crate.name, "above"] = found
        return found

    def sum_of_library(self, crate):
        """Returns the sum of what crates above read of a library that is built."""
        found = self.libraries.get(crate.name)
        if not found:
            antt = f"{crate.rlib}/lang/antt"
            parts = [f"{crate.rlib}/lang/src", f"{antt}/specs", f"{antt}/proofs"]
            found = self.libraries[crate.name] = sum_of(*texts_of(parts, without_comments))
        return found


def texts_of_proofs(crate):
    """Returns the files of a crate's proofs, each with its text."""
    found = texts_of([f"{crate.folder}/proofs"], without_comments)
    return list(zip(found[::2], found[1::2]))


def without_bodies(name, text):
    """Returns a source without the bodies of its functions, where these do not decide what another
    function sees of them, and without lines that are comments alone."""
    lines = text.decode().split("\n")
    for it in reversed(functions_of(text.decode())):
        if is_closed(text.decode(), it):
            del lines[it.body : it.last - 1]
    return without_comments(name, "\n".join(lines).encode())


def is_closed(text, function):
    """Returns whether no other function sees a function's body."""
    return without_body(text, function) is not None and not function.cycle


def sum_of_function(crate, mutant):
    """Returns the sum of the function that a mutant changes, with the files of its proof, or of all
    sources and proofs where it is not known which function or which files these are."""
    if mutant.function:
        with open(f"{crate.folder}/{mutant.file}", encoding="utf-8") as it:
            text = it.read()
        function = functions_of(text)[mutant.function[0]]
        place = place_of_proof(crate, mutant.file, function)
        if place and not function.cycle:
            lines = "\n".join(text.split("\n")[function.first - 1 : function.last])
            body = without_comments(mutant.file, lines.encode())
            files = [it for it in texts_of_proofs(crate) if it[0].startswith(f"{place}/")]
            return sum_of(body, repr(files))
    sources = texts_of([f"{crate.folder}/src"], without_comments)
    return sum_of(*sources, repr(texts_of_proofs(crate)))
