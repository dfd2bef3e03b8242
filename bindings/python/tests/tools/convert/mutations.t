#!/usr/bin/env python3
"""Mutates the cases at random, and passes them to lexicat-convert, as files and as
language maps. What is read goes out again and comes back as it was.

It takes what program.py says.
"""
import glob
import json
import os
import random

from program import CASES, FORMATS, OF_SOURCE, fault, run, tap, test
from mutating import mutated  # (which program has put on the path)

RUNS = 230
counts = {}
TOKENS = [b'"', b"'", b"\\", b"\n", b"\r\n", b"=", b"{", b"}", b"{ $n ->", b"[one]", b"*[other]",
          b"<", b">", b"</", b"/>", b"&", b"&#0;", b"&#x41;", b"<!--", b"-->", b"<![CDATA[", b"]]>",
          b"/*", b"*/", b"//", b";", b":", b",", b".", b"_one", b"_other", b"@", b"@@", b"#",
          b"%#@a@", b"\\u00", b"\\ud83d", b"\\U0041", b"\x00", b"\xff", b"\xef\xbb\xbf",
          b"\xe2\x80\xae", b"null", b"[", b"]", b"1e999", b"<b>", b"</b>", b"<item>",
          b'quantity="few"', b"\x0c", b"\xc2\x85", b"-", b" ", b"\t", b"    ", b"x" * 70000,
          b"<!DOCTYPE a>", b'xml:lang="de"', b"msgid", b"1"]


def ended(what, status, output, errors):
    """Sees that a run ended in words."""
    counts[status] = counts.get(status, 0) + 1
    lines = errors.split("\n")[:-1]
    if status not in (0, 3, 7) or status and not lines or (status == 3 and output != b"") \
            or not all(line.startswith("lexicat-convert: ") for line in lines):
        fault(f"{what}: {status} {errors[-500:]}")


def mutate(kind, seed):
    """Some mutations of the cases of a format."""
    chance = random.Random(f"{seed} {kind}")
    files = sorted(it[:-5] for it in glob.glob(f"{CASES}/*.{kind}.json"))
    for number in range(RUNS):
        path = chance.choice(files)
        name = os.path.basename(path)
        with open(path, "rb") as file:
            mutate_once(chance, kind, f"{name} {number}", mutated(chance, file.read(), TOKENS))


def mutate_once(chance, kind, name, data):
    """A mutated file: in, and what came of it out, in again, and out as another format."""
    words = [] if kind in (*OF_SOURCE, "csv", "arb") else ["--lang", "pl"]
    status, output, errors = run(kind, "in", *words, data=data)
    ended(f"{name} {data[-3000:]}", status, output, errors)
    if status not in (0, 7) or output == b"{}\n":
        return
    maps = json.loads(output)
    langs = {lang for labels in maps.values() for lang in labels if lang[:2] != "x-"}
    lang, source = "pl", "en"
    if kind in (*OF_SOURCE, "arb"):
        lang = ([it for it in sorted(langs) if it != "en" or kind == "arb"] or ["pl"])[0]
    words = ["--lang", lang] * (kind not in ("csv", "xcstrings"))
    words += ["--source", source] * (kind in OF_SOURCE)
    status, went, errors = run(kind, "out", *words, data=output)
    ended(f"{name} out {data[-3000:]}", status, went, errors)
    if status == 0 and not errors:
        status, again, errors = run(kind, "in", *words, data=went)
        ended(f"{name} again", status, again, errors)
        if again != output:
            fault(f"{name}: {output.decode()} came back as {again.decode()} by {went}")
    other = chance.choice(FORMATS)
    words = ["--lang", lang] + ["--source", "en"] * (other in OF_SOURCE)
    if lang != "en" or len(words) == 2:
        asked = mutated(chance, output, TOKENS) if chance.randrange(2) else output
        status, went, errors = run(other, "out", *words, data=asked)
        ended(f"{name} as {other}", status, went, errors)


def all_ways():
    """All mutated files ended in all ways that there are."""
    if set(counts) != {0, 3, 7}:
        fault(f"statuses {counts}")
    return ", ".join(f"{count} runs with status {status}"
                     for status, count in sorted(counts.items()))


seed = tap.seed()
for form in FORMATS:
    test(f"mutated files of {form}", mutate, form, seed)
test("mutated files end in each way", all_ways)
tap.end()
