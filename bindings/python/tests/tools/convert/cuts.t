#!/usr/bin/env python3
"""Cuts a case of each format at each place, and passes what is left of it to
lexicat-convert. A file of JSON or XML that was cut is refused; so is a strings file
within an entry; of others what is there may be taken. Nothing ends without words.

It takes what program.py says.
"""
from program import CASES, OF_SOURCE, fault, run, tap, test

WHOLE = ("i18next", "arb", "android", "stringsdict", *OF_SOURCE)
counts = {}


def cut(name, kind):
    """A case, cut at some 120 places."""
    words = ["--source", "en"] if kind in OF_SOURCE else ["--lang", "pt-br"]
    with open(f"{CASES}/{name}", "rb") as file:
        data = file.read().rstrip()
    ended = {}
    for place in range(0, len(data), 1 + len(data) // 120):
        status, output, errors = run(kind, "in", *words, data=data[:place])
        ended[status] = ended.get(status, 0) + 1
        counts[status] = counts.get(status, 0) + 1
        is_within = kind == "strings" and data[:place].strip().endswith((b"=", b'"'))
        if status not in (0, 3, 7) or "Traceback" in errors or (status > 0) > bool(errors) or (
                status != 3 and (kind in WHOLE or is_within)) or (status == 3) != (output == b""):
            fault(f"{name} cut at {place}: {status} {output[:200]} {errors[-300:]}")
    return ", ".join(f"{count} with status {status}" for status, count in sorted(ended.items()))


def all_ways():
    """Some of all were refused, and some were not."""
    if not counts.get(3) or not counts.get(0):
        fault(f"statuses of cut files: {counts}")


for case in ("nested.i18next", "flutter.arb", "resources.android", "localizable.strings",
             "homes.stringsdict", "examples.properties", "table.csv", "polish.xliff",
             "segments.xliff2", "catalog.xcstrings", "guide.fluent"):
    test(f"{case}, cut at each place", cut, case, case.rpartition(".")[2])
test("some cut files are refused, and some are not", all_ways)
tap.end()
