#!/usr/bin/env python3
"""Tries how tools/mutants reads a mutant and applies it, and what the record of verdicts has: over a
crate of a few lines, without a proof.

Needed: nothing but Python. The Rattle kit is not asked.
"""
import os
import sys
import tempfile

ROOT = os.path.realpath(f"{os.path.dirname(os.path.realpath(__file__))}/../..")
sys.dont_write_bytecode = True
sys.path[:0] = [f"{ROOT}/tests/lib", f"{ROOT}/tools", f"{ROOT}/tools/mutants"]
import record  # noqa: E402
import tap  # noqa: E402
import texts  # noqa: E402

SOURCE = """//! A crate.

/// One.
pub fn one(text: &str) -> usize {
    text.len()
}

impl Two {
    /// Two.
    pub fn one(&self) -> usize {
        self.text.len()
    }
}

impl Three for Two {
    fn one(&self) -> usize {
        self.text.len()
    }
}
"""
PAIR = "old:     text.len()\nnew:     0\n"
# A mutant, and its fault, or none; and the line of the source that it changes.
MUTANTS = {
    "a text that is there once": ("file: src/lib.rt\nold: /// One.\nnew: /// Zero.\n", None, 3),
    "a text that is there twice": (
        "file: src/lib.rt\nold: self.text.len()\nnew: 0\n", "src/lib.rt 2 times", None),
    "a text that is there once in its function": (
        "file: src/lib.rt\nfn: one\nold: text.len()\nnew: 0\n", None, 5),
    "a method": ("file: src/lib.rt\nfn: Two::one\nold: self.text.len()\nnew: 0\n", None, 11),
    "a method of a trait": (
        "file: src/lib.rt\nfn: Three for Two::one\nold: self.text.len()\nnew: 0\n", None, 17),
    "a text of another function": (
        "file: src/lib.rt\nfn: one\nold: self.text\nnew: 0\n", "one 0 times", None),
    "a function that is not there": (
        f"file: src/lib.rt\nfn: Two::two\n{PAIR}", "0 functions Two::two", None),
    "a file that is not there": (f"file: src/a.rt\n{PAIR}", "there is no file src/a.rt", None),
    "a file outside of the crate": (f"file: ../src/lib.rt\n{PAIR}", "are a 'file:' line", None),
    "no file": (PAIR, "are a 'file:' line", None),
    "no pair": ("file: src/lib.rt\n", "no 'old:' and 'new:' pair", None),
    "a text by itself": ("file: src/lib.rt\nold: /// One.\nnew: /// One.\n", "by itself", None),
    "a line of no kind": (f"file: src/lib.rt\n{PAIR}more\n", "no line of a mutant: more", None),
}


def faults_of(text, fault, line):
    """What is wrong with how a mutant is read and applied."""
    with tempfile.TemporaryDirectory() as room:
        os.mkdir(f"{room}/src")
        for path, content in (("src/lib.rt", SOURCE), ("a_b.edit", text)):
            with open(f"{room}/{path}", "w", encoding="utf-8") as it:
                it.write(content)
        changed, found = texts.texts_of_mutant(f"{room}/a_b.edit", room)
    if fault:
        return [] if found and fault in found else [f"the fault is {found}, not one with '{fault}'"]
    if found:
        return [f"the fault {found}"]
    pairs = zip(SOURCE.split("\n"), changed["src/lib.rt"].split("\n"))
    lines = [at for at, (one, other) in enumerate(pairs, 1) if one != other]
    return [] if lines == [line] else [f"it changes the lines {lines}, not {line}"]


class Crate:
    """A crate of two functions, one of which a mutant changes, in a folder of its own."""

    name, is_static = "low", False
    files = {
        "src/lib.rt": "//! A crate.\n\n/// One.\npub fn one() -> u8\n    ensures { IsOne result }\n{\n"
                      "    1\n}\n\n/// Two.\npub fn two() -> u8\n    ensures { IsTwo result }\n{\n"
                      "    2\n}\n",
        "specs/One.antt": "pub IsOne : N -> Type\n",
        "proofs/OneLemmas.antt": "pub one_is_one : IsOne 1\n",
        "proofs/one/Answers.antt": "returns = one_is_one\n",
        "proofs/two/Answers.antt": "returns = two_is_two\n",
    }

    def __init__(self, room):
        self.folder = room
        for path, text in self.files.items():
            self.write(path, text)
        self.write("must-fail/one_of_none.edit", "file: src/lib.rt\nfn: one\nold: 1\nnew: 0\n")
        self.mutant = texts.Mutant(f"{room}/must-fail/one_of_none.edit", room, False)

    def write(self, path, text):
        os.makedirs(os.path.dirname(f"{self.folder}/{path}"), exist_ok=True)
        with open(f"{self.folder}/{path}", "w", encoding="utf-8") as it:
            it.write(text)

    def below(self):
        return []


# A change of a file of that crate, and whether the record still has its mutant.
CHANGES = {
    "a comment": ("src/lib.rt", "/// One.", "/// The first.", True),
    "the body of another function": ("src/lib.rt", "    2\n", "    1 + 1\n    // two\n", True),
    "the proof of another function": ("proofs/two/Answers.antt", "two_is_two", "by_rules", True),
    "its body": ("src/lib.rt", "    1\n", "    3 - 2\n", False),
    "its contract": ("src/lib.rt", "IsOne", "IsFirst", False),
    "the contract of another function": ("src/lib.rt", "IsTwo", "IsSecond", False),
    "its proof": ("proofs/one/Answers.antt", "one_is_one", "by_rules", False),
    "a lemma": ("proofs/OneLemmas.antt", "IsOne 1", "IsOne 2", False),
    "a definition": ("specs/One.antt", "Type", "Bool", False),
    "the mutant": ("must-fail/one_of_none.edit", "new: 0", "new: 2", False),
}


def faults_of_change(path, old, new, is_known):
    """What is wrong with whether a record has a mutant after a change."""
    with tempfile.TemporaryDirectory() as room:
        crate = Crate(f"{room}/low")
        first = record.Record("", "kit")
        first.note(crate, crate.mutant)
        if first.count_new() != 1:
            return [f"{first.count_new()} are new, not 1"]
        first.write(f"{room}/verdicts")
        with open(f"{room}/verdicts", encoding="utf-8") as it:
            lines = [line for line in it if not line.startswith("#")]
        if len(lines) != 1 or not lines[0].startswith("low "):
            return [f"it has not one line of the crate: {lines}"]
        if not record.Record(f"{room}/verdicts", "kit").has(crate, crate.mutant):
            return ["it has not the mutant that was noted"]
        if record.Record(f"{room}/verdicts", "other kit").has(crate, crate.mutant):
            return ["it has the mutant under another kit"]
        with open(f"{crate.folder}/{path}", encoding="utf-8") as it:
            text = it.read()
        crate.write(path, text.replace(old, new))
        known = record.Record(f"{room}/verdicts", "kit").has(crate, crate.mutant)
        return [] if known == is_known else [f"it has the mutant: {known}"]


def faults_of_turns():
    """What is wrong with which mutants are tried again: in ten days each is, once."""
    faults, os.environ["SEED"] = [], "20261130"
    one = record.Record("", "kit")
    turns = []
    for day in range(record.PARTS):
        one.seed = 20261130 + day
        turns.append({place for place in range(569) if one.is_due(place, 569)})
    if sorted(place for it in turns for place in it) != list(range(569)):
        faults.append("not each mutant has its turn once")
    if max(map(len, turns)) > 57:
        faults.append(f"{max(map(len, turns))} of 569 are tried again in one run")
    return faults


for name, (text, fault, line) in MUTANTS.items():
    tap.check(name, faults_of, text, fault, line)
for name, words in CHANGES.items():
    tap.check(f"the record after a change of {name}", faults_of_change, *words)
tap.check("the tenth that is tried again", faults_of_turns)
tap.end()
