#!/usr/bin/env python3
"""Sees that tools/audit prints what a contract stands on: of a small contract just the definitions
that a reader finds by hand, one that is planted below them, and of the large ones each definition
once, with its comment. And that each definition is on its side: in specs/ what is reached from what
a crate exports, in specs/inner/ the rest; one that is moved to the wrong side is found. It works on
copies of the sources, proves nothing, and needs Python alone.
"""
import collections
import contextlib
import os
import re
import shutil
import subprocess
import sys
import tempfile

HERE = os.path.dirname(os.path.realpath(__file__))
ROOT = os.path.realpath(f"{HERE}/../..")
sys.dont_write_bytecode = True
sys.path[:0] = [f"{HERE}/../lib"]
import tap  # noqa: E402

PLACE = re.compile(r"^-- (crates/\S+\.antt):(\d+)$")
# What `SiteName::new` cites is IsSiteName and RefusesName, and IsSiteName cites is_site_byte.
BY_HAND = ["IsSiteName", "is_site_byte", "RefusesName"]
TEST = "is_site_byte b = (nat_le 97 b && nat_le b 122) || ("
PLANTED = """
-- the last byte of a run
abbrev pub planted : ℕ → ℕ
planted b = b
"""
LARGE = ("promise::the_promise", "run", "sw_pick")
# A definition of each side, which cites no other: its crate, its file and its name.
OUTER = ("cell_core", "SiteName", "is_site_byte")
INNER = ("lang_core", "LookupText", "hyphened")


def audit(tree, *words):
    """What tools/audit prints in a tree."""
    run = subprocess.run([f"{tree}/tools/audit", *words], capture_output=True, text=True)
    if run.returncode:
        raise AssertionError(f"audit {' '.join(words)}: {run.stderr}")
    return run.stdout.split("\n")


def names_of(lines):
    """The names of the definitions of a reading, in its order."""
    head = re.compile(r"(?:(?:abbrev|unfoldable|pub|record|data|private|opaque) )*(\S+)")
    found = []
    for at, line in enumerate(lines):
        if PLACE.match(line):
            below = (it for it in lines[at + 1:] if not it.startswith(("--", "infix")))
            found.append(head.match(next(below).strip())[1])
    return found


def check_small():
    found = names_of(audit(ROOT, "SiteName::new"))
    if found != BY_HAND:
        raise AssertionError(f"it has {found}, and by hand {BY_HAND}")


@contextlib.contextmanager
def copied():
    """A copy of what tools/audit reads."""
    with tempfile.TemporaryDirectory() as room:
        left_out = shutil.ignore_patterns("out", "proofs", "must-fail")
        shutil.copytree(f"{ROOT}/crates", f"{room}/crates", ignore=left_out)
        shutil.copytree(f"{ROOT}/tools", f"{room}/tools")
        shutil.copy(f"{ROOT}/crates.txt", room)
        yield room


def read(path):
    with open(path, encoding="utf-8") as it:
        return it.read()


def write(path, text):
    os.makedirs(os.path.dirname(path), exist_ok=True)
    with open(path, "w", encoding="utf-8") as it:
        it.write(text)


def check_planted():
    with copied() as room:
        path = f"{room}/crates/cell_core/specs/SiteName.antt"
        text = read(path)
        if TEST not in text:
            raise AssertionError(f"is_site_byte does not begin with {TEST}")
        write(path, text.replace(TEST, TEST.replace("97 b", "97 (planted b)")) + PLANTED)
        found = names_of(audit(room, "SiteName::new"))
        if found != [*BY_HAND[:2], "planted", *BY_HAND[2:]]:
            raise AssertionError(f"it has {found}")


def check_large():
    faults = []
    for name in LARGE:
        lines = audit(ROOT, name)
        places = [at for at, line in enumerate(lines) if PLACE.match(line)]
        count = collections.Counter(lines[at] for at in places)
        faults += [f"{name}: {it} is there twice" for it, often in count.items() if often > 1]
        faults += [f"{name}: {lines[at]} has no comment" for at in places
                   if not lines[at + 1].strip().startswith(("--", "infix"))]
        said = re.search(r": (\d+) definitions of \d+ lines", lines[-2])
        if not said or int(said[1]) != len(places) or not places:
            faults.append(f"{name}: it prints {len(places)} definitions and says {lines[-2]}")
    return faults


def wrong_in(tree):
    """The definitions of a tree that are on the wrong side, as (file, name)."""
    run = subprocess.run([f"{tree}/tools/audit", "--sides"], capture_output=True, text=True)
    found = re.findall(r"^(crates/\S+):\d+: (\S+): ", run.stdout, re.M)
    if run.stderr or run.stdout.count("\n") != len(found) or run.returncode != bool(found):
        raise AssertionError(f"it ends with {run.returncode}, and prints {run.stdout}{run.stderr}")
    return found


def move(tree, definition, source, to):
    """Moves a definition to the file of the same name in another folder."""
    crate, file, name = definition
    old, new = (f"{tree}/crates/{crate}/{folder}/{file}.antt" for folder in (source, to))
    parts = read(old).split("\n\n")
    moved = [it for it in parts if re.search(rf"^(?:\w+ )*pub {name} :", it, re.M)]
    if len(moved) != 1:
        raise AssertionError(f"{old} has {name} {len(moved)} times")
    parts.remove(moved[0])
    cited = f"use Rattle.{crate}.{to.replace('/', '.')}.{file}.{{{name}}}\n"
    write(old, cited + "\n\n".join(parts).rstrip("\n") + "\n")
    there = read(new).rstrip("\n") + "\n\n" if os.path.exists(new) else ""
    write(new, there + moved[0].rstrip("\n") + "\n")
    return f"crates/{crate}/{to}/{file}.antt", name


def check_sides():
    return [f"{path}: {name} is on the wrong side" for path, name in wrong_in(ROOT)]


def check_moved():
    for definition, *folders in ((OUTER, "specs", "specs/inner"), (INNER, "specs/inner", "specs")):
        with copied() as room:
            moved = move(room, definition, *folders)
            if wrong_in(room) != [moved]:
                raise AssertionError(f"{moved} was moved, and it finds {wrong_in(room)}")


tap.check("a small contract stands on what a reader finds by hand", check_small)
tap.check("a definition that is planted below them is found", check_planted)
tap.check("each definition of a large reading is there once, with its comment", check_large)
tap.check("what is exported reaches all of specs/, and nothing of specs/inner/", check_sides)
tap.check("a definition that is moved to the wrong side is found", check_moved)
tap.end()
