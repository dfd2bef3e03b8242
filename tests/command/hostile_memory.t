#!/usr/bin/env python3
"""Measures the memory of the command for documents of 16 MiB that it refuses for one row, of sites,
deltas, summaries and scripts: it takes at most six bytes for each byte of them, and fourteen of a
summary whose kind or version is an array, since it may still be one with labels.

Takes build/lexicat, or the command that LEXICAT names. Needed: GNU time, which is small, as a
process begins with the peak of the one that starts it.
"""
import os
import subprocess
import sys
import tempfile

sys.dont_write_bytecode = True
sys.path.insert(0, os.path.dirname(os.path.realpath(__file__)))
from hostile import LEXICAT, Kind, tap  # noqa: E402

SIZE = 16 * 2**20
MOST = 6
HEAD = "arrays for "
MOST_OF_HEADS = {"summary": 14}
# What the command takes for any input, in bytes.
CONSTANT = 8 * 2**20
TIME = "/usr/bin/time"

# Values of many parts, and how many bytes a part has.
VALUES = {
    "nested arrays": "[[[[[[[[]]]]]]]]",
    "empty arrays": "[]",
    "arrays in two levels": "[[],[],[],[],[],[],[]]",
    "rows of six": '["","",5,"a",0,[""]]',
    "numbers": "5",
    "empty texts": '""',
    "nulls": "null",
    "objects": '{"a":[]}',
}


def many(part, size=SIZE):
    return f"[{','.join([part] * (size // (len(part) + 1)))}]"


def rows(kind, name, part):
    """Rows that are refused, each of about SIZE bytes: with many parts for the row, for a member of
    it, for a member more, and for a member of the row in a step."""
    good, value = kind.row(), many(part)
    yield f"{name} for a row", [value]
    yield f"{name} for rows", [many(part)[1:-1]]
    yield f"{name} more", [kind.joined([*good, value])]
    yield f"{name} in a member more", [kind.joined([*good, f'{{"a":{value}}}'])]
    for at in range(len(good)):
        yield f"{name} at {at}", [kind.joined([*good[:at], value, *good[at + 1:]])]
    yield f"{name} after a refused row", ["5", kind.joined([*good[:-1], value])]


def documents(kind):
    for name, part in VALUES.items():
        for case, given in rows(kind, name, part):
            yield case, *kind.given(given)
    words, given = kind.given([])
    for member in ('"kind":', '"version":'):
        first, found, last = given.rpartition(member)
        _, comma, rest = last.partition("," if "," in last else "}")
        yield HEAD + member, words, f"{first}{found}{many('[]')}{comma}{rest}"


def refused(words, given):
    """The peak bytes of memory of the command, which refuses what is given."""
    with tempfile.TemporaryFile() as data, tempfile.NamedTemporaryFile("r") as peak:
        data.write(given.encode())
        data.seek(0)
        words = [TIME, "-o", peak.name, "-f", "%M", LEXICAT, *words]
        ran = subprocess.run(words, stdin=data, capture_output=True)
        if ran.returncode != 3 or not ran.stderr.startswith(b"refused "):
            raise ValueError(f"status {ran.returncode}: {ran.stderr[:200]}")
        return int(peak.read().split()[-1]) * 1024


def takes_little(kind):
    faults, most = [], 0
    for case, words, given in documents(kind):
        taken = (refused(words, given) - CONSTANT) / len(given)
        most = max(most, taken)
        if taken > (MOST_OF_HEADS.get(kind.name, MOST) if case.startswith(HEAD) else MOST):
            faults.append(f"{case}: {taken:.1f} bytes a byte")
    tap.report(f"a row of a {kind.name} of version {kind.version}", faults,
               f"{most:.1f} bytes a byte at most")


tap.needs(LEXICAT, TIME)
for name in ("site", "delta", "summary", "edit"):
    takes_little(Kind(name, "2"))
tap.end()
