#!/usr/bin/env python3
"""Sees that data/cldr.fallbacks is a table of fallbacks (docs/COMMAND.md), with an element on each
line, sorted, in the case of RFC 5646 section 2.1.1; that it is what tools/fallbacks prints; and
that planted faults are found.

Needed for the second: Debian's unicode-cldr-core in the version of CLDR that data/README.md names.
"""
import os
import re
import subprocess
import sys

HERE = os.path.dirname(os.path.realpath(__file__))
ROOT = os.path.realpath(f"{HERE}/../..")
sys.dont_write_bytecode = True
sys.path[:0] = [f"{HERE}/../lib"]
import tap  # noqa: E402

CLDR = "/usr/share/unicode/cldr/common"
LONGEST = 65_535
LETTERS = "abcdefghijklmnopqrst"
# RFC 5646 section 2.1, where the irregular tags are no use in a table.
TAG = re.compile(r"""
    ( [a-z]{2,3} (-[a-z]{3}){0,3} | [a-z]{4} | [a-z]{5,8} )
    (-[a-z]{4})? (-([a-z]{2}|[0-9]{3}))? (-([a-z0-9]{5,8}|[0-9][a-z0-9]{3}))*
    (-[a-wyz0-9](-[a-z0-9]{2,8})+)* (-x(-[a-z0-9]{1,8})+)?
    | x(-[a-z0-9]{1,8})+""", re.X)


def canonical(tag):
    """The tag with scripts and regions as RFC 5646 section 2.1.1 writes them."""
    subtags, is_after_single = [], False
    for it in tag.lower().split("-"):
        is_cased = subtags and not is_after_single
        subtags.append(it.upper() if is_cased and len(it) == 2 else
                       it.title() if is_cased and len(it) == 4 else it)
        is_after_single = is_after_single or len(it) == 1
    return "-".join(subtags)


def faults(text):
    """What is wrong with a table."""
    if len(text) > LONGEST:
        yield f"{len(text)} bytes"
    lefts = []
    for piece in text.split(","):
        element = piece.strip(" \t\r\n")
        left, _, right = element.partition("=")
        if element and not (TAG.fullmatch(left.lower()) and TAG.fullmatch(right.lower())):
            yield f"{element!r} is no element"
        elif element:
            if left.lower() in lefts:
                yield f"{left} is on the left twice"
            if left.lower() == right.lower():
                yield f"{element} leads nowhere"
            if (canonical(left), canonical(right)) != (left, right):
                yield f"{element} is not in canonical case"
            lefts.append(left.lower())
    if not lefts:
        yield "there is no element"
    if lefts != sorted(lefts):
        yield "it is not sorted"
    if not re.fullmatch(r"([^\n,]+,\n)*", text):
        yield "a line is not one element and a comma"


def is_found(fault, text):
    """Whether a fault is found in a text, and no other."""
    found = list(faults(text))
    return [] if len(found) == 1 and fault in found[0] else [f"{text[:60]!r}: {found}"]


def differs(text):
    """Whether the table is another than the one that is printed."""
    printed = subprocess.run([f"{ROOT}/tools/fallbacks"], stdout=subprocess.PIPE, check=True)
    return [] if printed.stdout == text.encode() else ["tools/fallbacks prints another table"]


def found_in(path, pattern):
    """The first group of a pattern in a file; none if there is no such file."""
    if not os.path.exists(path):
        return None
    with open(path, encoding="utf-8") as file:
        return re.search(pattern, file.read())[1]


def main():
    with open(f"{ROOT}/data/cldr.fallbacks", encoding="ascii", newline="") as file:
        text = file.read()
    tap.report("the file is a table of fallbacks", list(faults(text)), f"{len(text)} bytes")
    many = [f"{a}{b}{c}" for a in LETTERS for b in LETTERS for c in LETTERS]
    planted = {
        "no element": "a1=no,\nda=no,\n",
        "twice": "da=no,\nda=nb,\n",
        "sorted": "no=nb,\nda=no,\n",
        "case": "zh-tw=zh-Hant,\n",
        "nowhere": "no=no,\n",
        "line": "da=no, no=nb,\n",
        "bytes": "".join(f"{it}=nb-x-{it},\n" for it in many),
    }
    for fault, changed in planted.items():
        tap.check(f"a planted fault is found: {fault}", is_found, fault, changed)
    compared = "the file is what tools/fallbacks prints"
    version = found_in(f"{ROOT}/data/README.md", r"CLDR (\d+)")
    if found_in(f"{CLDR}/dtd/ldmlSupplemental.dtd", r'cldrVersion CDATA #FIXED "(\d+)"') == version:
        tap.check(compared, differs, text)
        tap.report("a table with another element differs",
                   [] if differs(text.replace("no=", "nl=", 1)) else ["it does not"])
    else:
        tap.lacks(compared, f"unicode-cldr-core of CLDR {version}")
    tap.end()


if __name__ == "__main__":
    main()
