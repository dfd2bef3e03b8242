#!/usr/bin/env python3
"""Passes each case of the folder cases to lexicat-convert, by a test of each format:
small files with what its document has, and the language maps that they have to be, by hand; the way
back; and each misfit. A case is a file NAME.FORMAT, with what it has to be in NAME.FORMAT.json:
`words`, `maps`, and where they are not empty and 0 `said` (the lines on standard error, without the
file's name) and `status`. With `back` the maps go out as that file (true: the same one); `misfits`
is a list of maps that do not, with what is said of them.

It takes what program.py says.
"""
import glob
import json
import os

from program import CASES, FORMATS, fault, maps, run, tap, test

PREFIX = "lexicat-convert: "
count = 0


def lines(errors):
    """The lines on standard error, without what they begin with."""
    return [line.removeprefix(PREFIX).removeprefix("standard input: ")
            for line in errors.splitlines()]


def expect(name, wanted, got):
    """Compares what a run did with what it has to do."""
    global count
    count += 1
    if wanted != got:
        fault(f"{name}: wanted {wanted}, not {got}")


def try_case(path):
    """One case: in, and out."""
    name = os.path.basename(path)[:-5]
    with open(path, encoding="utf-8") as file:
        case = json.load(file)
    with open(path[:-5], "rb") as file:
        data = file.read()
    kind = name.rpartition(".")[2]
    words = case.get("words", [])
    said = case.get("said", [])
    status, output, errors = run(kind, "in", *words, data=data)
    expect(name, (case.get("status", 0), maps(case["maps"]) if case["maps"] is not None else b"",
                  said), (status, output, lines(errors)))
    if "back" in case:
        wanted = data if case["back"] is True else case["back"].encode()
        status, output, errors = run(kind, "out", *case.get("out", words),
                                     data=maps(case["maps"]))
        expect(f"{name} out", (0, wanted, case.get("left", [])), (status, output, lines(errors)))
        _, again, _ = run(kind, "in", *words, data=output)
        expect(f"{name} again", maps(case["maps"]), again)
    for misfit in case.get("misfits", []):
        status, output, errors = run(kind, "out", *case.get("out", words),
                                     data=maps(misfit["maps"]))
        expect(f"{name} misfit {misfit['said']}", (7, misfit["said"]), (status, lines(errors)))


def try_format(kind):
    """All cases of a format."""
    global count
    count = 0
    for it in sorted(glob.glob(f"{CASES}/*.{kind}.json")):
        try_case(it)
    if not count:
        fault("there is no case")
    return f"{count} runs are as the document of the format wants them"


def all_expected():
    """Each file is a case, with what it has to be, and of a format."""
    for it in glob.glob(f"{CASES}/*"):
        has_expectation = os.path.exists(f"{it}.json")
        if not it.endswith(".json") and not has_expectation:
            fault(f"{it}: has no expectation")
        name = it if has_expectation else it.removesuffix(".json")
        if name.rpartition(".")[2] not in FORMATS:
            fault(f"{it}: is of no format")


test("each case has what it has to be", all_expected)
for kind in FORMATS:
    test(f"the cases of {kind}", try_format, kind)
tap.end()
