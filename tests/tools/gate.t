#!/usr/bin/env python3
"""Tries how tools/gate counts: what it makes of the output of tests that pass, fail, are skipped and
end before their time, and of the last lines of proofs; and what its last line and status are.

Needed: nothing but Python. The Rattle kit is not asked.
"""
import contextlib
import importlib.machinery
import importlib.util
import io
import os
import sys
import tempfile
import time

ROOT = os.path.realpath(f"{os.path.dirname(os.path.realpath(__file__))}/../..")
sys.dont_write_bytecode = True
sys.path[:0] = [f"{ROOT}/tests/lib", f"{ROOT}/tools"]
import tap  # noqa: E402

loader = importlib.machinery.SourceFileLoader("gate", f"{ROOT}/tools/gate")
gate = importlib.util.module_from_spec(importlib.util.spec_from_loader("gate", loader))
loader.exec_module(gate)

# What a test printed, its status, and how many passed, failed and were skipped.
TESTS = {
    "all pass": ("ok 1 - a\nok 2 - b\n1..2\n", 0, (2, 0, 0)),
    "one fails": ("ok 1 - a\nnot ok 2 - b\n# why\n1..2\n", 1, (1, 1, 0)),
    "one is skipped": ("ok 1 - a\nok 2 - b # SKIP there is no c\n1..2\n", 0, (1, 0, 1)),
    "the whole is skipped": ("1..0 # SKIP there is no c\n", 0, (0, 0, 1)),
    "it ends without a plan": ("ok 1 - a\n", 0, (1, 1, 0)),
    "it prints nothing": ("", 0, (0, 1, 0)),
    "it plans more than it has": ("1..3\nok 1 - a\nok 2 - b\n", 0, (2, 1, 0)),
    "it ends with another status": ("ok 1 - a\n1..1\n", 2, (1, 1, 0)),
    "a test in a test is skipped": (
        "    ok 1 - inner # SKIP there is no c\n    1..1\nok 1 - a\n1..1\n", 0, (1, 0, 1)),
    "notes that look like results": ("# not ok 1 - a\nok 1 - a\n1..1\n", 0, (1, 0, 0)),
    "a name with a number sign": ("ok 1 - a #2\n1..1\n", 0, (1, 0, 0)),
}
# What a run of proofs printed, and how many passed and failed.
RUNS = {
    "proofs that pass": ("rt: a proved\n12 passed, 0 failed\n", (12, 0)),
    "proofs of which one fails": ("rt: a NOT PROVED\n11 passed, 1 failed\n", (11, 1)),
    "a failure without a line": ("11 passed, 2 failed\n", (11, 2)),
    "a run that was cut": ("rt: a proved\n", (0, 1)),
    "the last of two lines counts": ("3 passed, 1 failed\n4 passed, 0 failed\n", (4, 0)),
}


def counted(tally):
    return tally.passed, len(tally.failed), len(tally.skipped)


def ended(tally, is_strict, lacking=None):
    """The status and the last line of a gate that counted so."""
    said = io.StringIO()
    with tempfile.TemporaryDirectory() as room, contextlib.redirect_stdout(said):
        os.mkdir(f"{room}/build")
        if lacking:
            with open(f"{room}/build/needs.lacking", "w", encoding="utf-8") as it:
                it.write(lacking)
        os.chdir(room)
        status = gate.report(tally, time.monotonic(), is_strict)
        os.chdir("/")
    return status, said.getvalue().split("\n")[-2], said.getvalue()


for name, (text, status, wanted) in TESTS.items():
    tally = gate.Tally()
    tally.add_test("x.t", text, status)
    tap.report(f"a test: {name}", [] if counted(tally) == wanted else [f"{counted(tally)}"])

for name, (text, wanted) in RUNS.items():
    tally = gate.Tally()
    tally.add_line("x", text)
    tap.report(name, [] if counted(tally)[:2] == wanted else [f"{counted(tally)}"])

skips = gate.Tally()
skips.add_test("x.t", TESTS["one is skipped"][0], 0)
for name, is_strict, lacking, wanted in (
    ("a skip is counted", False, None, 0),
    ("a skip fails where nothing may be skipped", True, None, 1),
    ("a skip passes where a package could not be fetched", True, "chromium", 0),
):
    status, last, said = ended(skips, is_strict, lacking)
    is_well = (status, last) == (wanted, "1 passed, 0 failed, 1 skipped")
    is_well = is_well and "gate: skipped: x.t: b: there is no c\n" in said
    is_well = is_well and (lacking or "") in said
    tap.report(name, [] if is_well else [f"status {status}", said])

fails = gate.Tally()
fails.add_test("x.t", TESTS["one fails"][0], 1)
status, last, said = ended(fails, False)
is_well = (status, last) == (1, "1 passed, 1 failed, 0 skipped") and "FAILED: x.t: b\n" in said
tap.report("a failure is the status", [] if is_well else [f"status {status}", said])
tap.end()
