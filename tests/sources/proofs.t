#!/usr/bin/env python3
"""Sees that the map of what is proved is whole, that each name in docs/maintaining/PROOFS.md
exists, and that docs/maintaining/GATE.md lists just the public functions that no mutant changes; no
function has two mutants.

The map is what tools/proofs makes of the sources. Whole: each law, each public function of a
library, and each `impl` of a public type that states something of its own has a doc comment whose
first sentence is its row; each definition of specs/ that its contract cites is in the file that the
source imports it from; and each link of the map leads to a file. Public is what `src/lib.rt`
exports, with inherent methods and the functions of traits; a program counts by its laws alone.
Names exist: in docs/maintaining/PROOFS.md a name that is a link is defined in the file that it
leads to; in the last column of a table one that is no link is a clause of the function that was
linked before it in that row. A mutant is of the function that its changed line is in; laws have
none, and neither have the methods of traits. It reads sources and proves nothing, and needs Python
alone.
"""
import glob
import os
import re
import subprocess
import sys
import tempfile

HERE = os.path.dirname(os.path.realpath(__file__))
sys.dont_write_bytecode = True
sys.path[:0] = [f"{HERE}/../lib", f"{HERE}/../../tools", f"{HERE}/../../tools/mutants"]
import rattle_sources as rattle  # noqa: E402
import tap  # noqa: E402
import texts  # noqa: E402
from proof_map import Source, public_names, stated  # noqa: E402

PAGE = "docs/maintaining/PROOFS.md"
GATE = "docs/maintaining/GATE.md"
WITHOUT_MUTANT = "### Public functions without a mutant"
LAWS = ("laws.rt", "lang_map_laws.rt", "migration.rt", "promise.rt")
TOKEN = re.compile(r"\[`([^`]+)`\]\(([^)]+)\)|`([^`]+)`")
faults = []
fault = faults.append


def path_of(target):
    path = os.path.normpath(os.path.join(os.path.dirname(PAGE), target.split("#")[0]))
    return path if rattle.is_there(path) else None


def check_page():
    """Sees that what docs/maintaining/PROOFS.md names exists; answers how many names it links."""
    links = 0
    for number, line in enumerate(rattle.read(PAGE).split("\n"), 1):
        is_row = line.startswith("|") and not line.startswith("|--")
        where, function = f"{PAGE}:{number}", None
        for name, target, plain in TOKEN.findall(line.rstrip("| ").split(" | ")[-1]):
            path = path_of(target) if target else None
            if plain and is_row and function is None:
                fault(f"{where}: {plain} is no link, and no function comes before it")
            elif plain and is_row and plain not in Source(function[0]).says_of(function[1]):
                fault(f"{where}: {function[1]} has no clause {plain}")
            elif target:
                links += 1
                if path is None:
                    fault(f"{where}: {name}: there is no {target}")
                elif path.endswith(".antt") and name not in rattle.exported_by(path):
                    fault(f"{where}: {path} does not define {name}")
                elif path.endswith(".rt"):
                    function = (path, name)
                    if not Source(path).has(name):
                        fault(f"{where}: {path} has no {name}")
    return links


def check_map():
    """Sees that each row of the map has what it needs; answers how many rows there are."""
    count = 0
    for crate in rattle.crates():
        for name, source in stated(crate):
            count += 1
            if not rattle.sentence(source.doc_of(name)):
                fault(f"{source.path}: {name} has no sentence: write a doc comment over it")
            for path, defined in source.cited_by(name):
                if not rattle.is_there(path) or defined not in rattle.exported_by(path):
                    where = f"{source.path}: {name}"
                    fault(f"{where} cites {defined}, and {path} does not define it")
    with tempfile.TemporaryDirectory() as room:
        written = os.path.join(room, "PROOFS.md")
        subprocess.run([os.path.join(rattle.ROOT, "tools/proofs"), written], check=True,
                       stdout=subprocess.DEVNULL)
        with open(written, encoding="utf-8") as file:
            text = file.read()
    for target in sorted(set(re.findall(r"\]\(\.\./([^)]+)\)", text))):
        if not rattle.is_there(target):
            fault(f"the map leads to {target}, which is not there")
    rows = text.count("\n| ") - text.count("\n| what |")
    if rows != count:
        fault(f"the map has {rows} rows for {count} functions, laws and impls")
    return count


def mutated(crate):
    """The functions that a mutant changes, as (source, line of `fn`). Two mutants of one are a
    fault, as each costs a failed proof of its function in every run of the gate."""
    found = {}
    for path in sorted(glob.glob(os.path.join(rattle.ROOT, f"crates/{crate}/must-fail/*.edit"))):
        for change in texts.read_mutant(path)[0]:
            source = f"crates/{crate}/{change.file}"
            text = Source(source).text
            place, _ = change.place_in(text)
            # (a later change may be of what an earlier one made)
            place = text.find(change.old) if place is None else place
            changed = text[:place].count("\n") + 1
            before = [it.line for it in Source(source).functions if it.line <= changed]
            key = (source, before[-1] if before else 0)
            if found.setdefault(key, path) != path:
                names_of = ", ".join(os.path.basename(it) for it in (found[key], path))
                fault(f"{crate}: two mutants of one function: {names_of}")
    return set(found)


def unmutated():
    """The public functions that no mutant changes, but laws and the methods of traits."""
    for crate in rattle.crates():
        if not rattle.is_there(f"crates/{crate}/must-fail"):
            continue
        changed = mutated(crate)
        for name, source in public_names(crate):
            if source.path.endswith(LAWS):
                continue
            for function in source.functions:
                is_meant = function.owner == name or function in source.functions_named(name)
                if is_meant and function.owner not in source.traits:
                    if (source.path, function.line) not in changed:
                        yield name


def check_list_of_unmutated():
    """Compares the list of the page with the mutants; answers how many functions have none."""
    section = rattle.read(GATE).partition(WITHOUT_MUTANT)[2].split("\n## ")[0]
    bullets = "\n".join(line for line in section.split("\n") if line.startswith("- "))
    named = set(re.findall(r"`([^`]+)`", section))
    without = set(unmutated())
    for name in sorted(without):
        if name not in named and name.partition(" for ")[2] not in named:
            fault(f"{name} has no mutant, and {GATE} does not say so")
    for name in sorted(set(re.findall(r"`(\w+::\w+)`", bullets)) - without):
        fault(f"{GATE}: {name} has a mutant, or is not public")
    return len(without)


def compared(name, look, said):
    """Reports what a look finds wrong, and how much it looked at."""
    faults.clear()
    count = look()
    tap.report(name, faults, f"{count} {said}")


compared(f"what {PAGE} names exists", check_page, "links")
compared("the map of what is proved is whole", check_map, "functions, laws and impls")
compared(f"{GATE} lists the functions without a mutant", check_list_of_unmutated, "have no mutant")
tap.end()
