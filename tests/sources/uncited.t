#!/usr/bin/env python3
"""Sees that each definition and lemma under crates/*/specs and crates/*/proofs serves something.

usage: tests/sources/uncited.t [--list]     with --list notes count the reached ones of each crate

A name is reached if a source names it, or the proof of a function (proofs/FILE/FUNCTION/), or
another definition or lemma that is reached itself. What only names itself, or only such as are not
reached, is dead weight and fails. A name counts in its own file, and in a file that imports it by
`use` or `ghost use`, or cites it with its path; to import it alone is no use. Names are compared as
words: a variable of the same name hides that a lemma is not needed, and no needed one is reported.
Operators are not looked at, since they are cited by their sign. It reads files and proves nothing,
and needs Python alone.
"""
import collections
import os
import re
import sys

HERE = os.path.dirname(os.path.realpath(__file__))
sys.dont_write_bytecode = True
sys.path[:0] = [f"{HERE}/../lib", f"{HERE}/../../tools"]
import rattle_sources as rattle  # noqa: E402
import tap  # noqa: E402

WORD = re.compile(r"[^\s(){}\[\],;.:]+")


def defines(path):
    """Whether a file's names are its author's. Those of a function's proof are the prover's."""
    is_of_crate = "/specs/" in path or path.count("/") == 3
    return is_of_crate and not path.endswith(("/Lib.antt", "/specs/inner.antt"))


def is_looked_at(definition):
    """Whether a definition has to be reached. (Operators are cited by their signs.)"""
    return not definition.name.startswith("◌")


class File:
    """A file as its definitions, each with the words in it, and the words outside of them."""

    def __init__(self, path):
        self.path, self.imports = path, collections.defaultdict(dict)
        self.words, self.places = collections.defaultdict(set), {}
        text = re.sub("--.*" if path.endswith(".antt") else "//.*", "", rattle.read(path))
        for module, names, _ in rattle.uses_of(text):
            self.imports[module].update(names or {"*": "*"})
        self.paths = rattle.cited_by_path(text)
        if path.endswith(".antt"):
            # `crates/list_core/proofs/IndexLemmas.antt` is `nego_core.proofs.IndexLemmas`
            self.module = path[len("crates/"):-len(".antt")].replace("/", ".")
            self.split(rattle.parts_of(text))
        else:
            self.module = None
            self.words[None] = set(WORD.findall(rattle.without_uses(text)))

    def split(self, parts):
        """Gives the words of each line to the definition that it is in."""
        for definition, line in parts:
            is_one = definition and defines(self.path) and is_looked_at(definition)
            name = definition.name if is_one else None
            if name:
                self.places.setdefault(name, definition.line)
            self.words[name] |= set(WORD.findall(line))

    def cites(self, word, module):
        """The name of that module which a word of this file may mean, or none."""
        if module == self.module:
            return word
        known = self.imports.get(module, {})
        return known.get(word, word if "*" in known else None)


def all_files():
    """The files of all crates."""
    kinds = (("specs", ".antt"), ("proofs", ".antt"), ("src", ".rt"))
    return [File(path) for crate in rattle.crates() for folder, ending in kinds
            for path in rattle.files_of(crate, folder, ending)]


def defined(files):
    """The file of each definition, by (module, name), and the modules that define each name."""
    bodies, owners = {}, collections.defaultdict(set)
    for file in files:
        for name in file.places:
            bodies[file.module, name] = file
            owners[name].add(file.module)
    return bodies, owners


def reached(files, bodies, owners):
    """The definitions that are reached, as (module, name)."""
    found, left = set(), []

    def take(definition):
        if definition in bodies and definition not in found:
            found.add(definition)
            left.append(definition)

    def take_words(file, words):
        renamed = {alias: name for known in file.imports.values() for alias, name in known.items()}
        for word in words:
            for module in owners[word] | owners[renamed.get(word, word)]:
                take((module, file.cites(word, module)))

    for file in files:
        take_words(file, file.words[None])
        crate = file.path.split("/")[1]
        for module, name in file.paths:
            take((f"{crate}.{module}", name))
    while left:
        module, name = left.pop()
        take_words(bodies[module, name], bodies[module, name].words[name])
    return found


files = all_files()
bodies, owners = defined(files)
found = reached(files, bodies, owners)
dead = sorted(set(bodies) - found)
faults = collections.defaultdict(list)
for module, name in dead:
    file = bodies[module, name]
    crate = module.split(".")[0]
    faults[crate].append(f"{file.path}:{file.places[name]}: nothing needs {name}")
counts = collections.Counter(module.split(".")[0] for module, _ in bodies)
for crate in rattle.crates():
    if counts[crate]:
        said = f"{counts[crate]} definitions and lemmas"
        tap.report(f"the definitions and lemmas of {crate}", faults[crate], said)
if "--list" in sys.argv[1:]:
    for crate, count in sorted(collections.Counter(m.split(".")[0] for m, _ in found).items()):
        tap.note(f"{crate} {count}")
tap.end()
