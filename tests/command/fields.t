#!/usr/bin/env python3
"""Counts what a bundle costs by a long field. It reads its field once, not once for each message:
so one by a field of 65,535 bytes takes at most twice the instructions of one by a short field.

Takes build/lexicat, or the command that LEXICAT names. Needed: valgrind, which counts.
"""
import json
import os
import shutil
import subprocess
import sys

HERE = os.path.dirname(os.path.realpath(__file__))
sys.dont_write_bytecode = True
sys.path[:0] = [HERE, f"{HERE}/../lib"]
import tap  # noqa: E402
from counting import LEXICAT, instructions  # noqa: E402

MESSAGES = 4_000
SHORT, LONG = 210, 65_535
MOST_TIMES = 2
LANGUAGES = [f"a{chr(97 + n)}" for n in range(20)]


def hostile_field(size):
    """A field that refuses twenty languages, and then names regions of them."""
    field = ", ".join(f"{it};q=0" for it in LANGUAGES)
    number = 0
    while True:
        more = f", {LANGUAGES[number % 20]}-x-{number}"
        if len(field) + len(more) > size:
            return field
        field, number = field + more, number + 1


def site():
    """A site whose messages have a label in each of the languages that the field refuses."""
    cells = [[f"m{n:05}", it, 5, "a", 0, ["x"]] for n in range(MESSAGES) for it in LANGUAGES]
    return json.dumps({"cells": cells, "kind": "site", "site": "a", "version": 2}).encode()


def words_for(size):
    return ["bundle", "--default", "zz", hostile_field(size)]


def answers_nothing(given, size):
    """Whether the bundle has no label, as each of them is refused."""
    ran = subprocess.run([LEXICAT, *words_for(size)], input=given, capture_output=True, check=False)
    is_so = (ran.returncode, ran.stdout) == (1, b"{}\n")
    return [] if is_so else [f"status {ran.returncode}: {ran.stdout[:100]}"]


def costs_little_more(given):
    """What the long field takes beside the short one, or a list of one fault."""
    short, long = (instructions(words_for(size), given) for size in (SHORT, LONG))
    said = f"{long / 1e6:.0f} million instructions, {long / short:.2f} of those by a short field"
    return [f"{said}, and at most {MOST_TIMES} are allowed"] if long > MOST_TIMES * short else said


tap.needs(LEXICAT)
given = site()
for size in (SHORT, LONG):
    tap.check(f"a bundle by a field of {size} bytes", answers_nothing, given, size)
COST = "what a bundle by a long field costs"
if shutil.which("valgrind"):
    tap.check(COST, costs_little_more, given)
else:
    tap.lacks(COST, "valgrind")
tap.end()
