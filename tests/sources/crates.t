#!/usr/bin/env python3
"""Sees that crates.txt names only what is used: each name after the colon of a crate's line occurs
in the sources, the definitions or the proofs of that crate (src, specs, proofs), in a path
(`NAME::`, `Rattle.NAME`) or an import (`use NAME`). What is below a named crate is found by itself,
so it is named only where it is used. That a name which is used is there too, the compiler sees. It
reads files and proves nothing, and needs Python alone.

OF_THE_KIT names what a static library has to name without a word in its sources.
"""
import os
import re
import sys

HERE = os.path.dirname(os.path.realpath(__file__))
sys.dont_write_bytecode = True
sys.path[:0] = [f"{HERE}/../lib", f"{HERE}/../../tools"]
import rattle_sources as rattle  # noqa: E402
import tap  # noqa: E402

KINDS = (("src", ".rt", "//.*"), ("specs", ".antt", "--.*"), ("proofs", ".antt", "--.*"))
OF_THE_KIT = {"staticlib": set()}


def lines():
    """The lines of crates.txt: of each crate its name, its kind and the names that it lists."""
    for line in rattle.read("crates.txt").split("\n"):
        left, colon, right = line.partition("#")[0].partition(":")
        if colon:
            name, *kind = left.split()
            yield name, " ".join(kind), right.split()


def text_of(crate):
    """All that a crate has, without comments."""
    return "\n".join(re.sub(comment, "", rattle.read(path)) for folder, ending, comment in KINDS
                     for path in rattle.files_of(crate, folder, ending))


def is_used(name, text):
    return re.search(rf"\b{name}::|\bRattle\.{name}\b|\buse {name}\b", text)


for crate, kind, names in lines():
    text = text_of(crate)
    unused = [it for it in names if not is_used(it, text) and it not in OF_THE_KIT.get(kind, ())]
    twice = sorted({it for it in names if names.count(it) > 1})
    tap.report(f"the names of {crate}",
               [f"crates.txt: {crate}: {it} is used nowhere" for it in unused] +
               [f"crates.txt: {crate}: {it} is named twice" for it in twice],
               f"{len(names)} names")
tap.end()
