"""What tests in Python share: what passes, fails and is skipped, as TAP on standard output (the Test
Anything Protocol, which `prove` reads). tests/lib/tap.sh has the same words.

    tap.check("what is tried", function, arguments)     a fault is an exception, or a list of faults
    tap.report("what is tried", faults)                 the same of faults that were found before
    tap.end()
"""
import datetime
import os
import shutil
import sys
import traceback
import unittest

failed = count = 0


def seed():
    """The number of which random tests take theirs: SEED, or the day. It is printed, so that another
    run can repeat them."""
    text = os.environ.get("SEED") or datetime.date.today().strftime("%Y%m%d")
    note(f"SEED={text}")
    return int(text)


def note(text):
    """Prints lines that explain."""
    for line in str(text).split("\n"):
        print(f"# {line}", flush=True)


def result(word, name, why=""):
    global count
    count += 1
    print(f"{word} {count} - {name}{why}", flush=True)


def ok(name, said=""):
    """Something passed; `said` is what it came to."""
    result("ok", name)
    if said:
        note(said)


def fail(name, *why):
    """Something failed, and why."""
    global failed
    failed += 1
    result("not ok", name)
    for it in why:
        note(it)


def skip(name, why):
    """Something was not tried, and why."""
    result("ok", name, f" # SKIP {why}")


def lacks(name, what):
    """Something was not tried, since something is not there."""
    skip(name, f"there is no {what}")


def report(name, faults, said=""):
    """Something failed if there are faults, and else passed."""
    if faults:
        fail(name, *faults)
    else:
        ok(name, said)


def check(name, call, *words):
    """Calls a function, which raises or returns a list of faults, or returns what it came to."""
    try:
        given = call(*words)
    except Exception:  # any fault of a test is its failure
        fail(name, traceback.format_exc())
        return
    if isinstance(given, list):
        report(name, given)
    else:
        ok(name, given or "")


def needs(*programs):
    """Leaves the whole test out, and ends it, if one of these programs or files is not there."""
    for it in programs:
        is_there = os.path.exists(it) if "/" in it else shutil.which(it)
        if not is_there:
            skip_all(f"there is no {it}")


def skip_all(why):
    """Leaves the whole test out, and ends it; before the first check."""
    print(f"1..0 # SKIP {why}")
    sys.exit(0)


def end():
    """Ends the test: one that does not come so far has no plan, and so has failed."""
    print(f"1..{count}", flush=True)
    sys.exit(1 if failed else 0)


class Result(unittest.TestResult):
    """What Python's own runner finds, as TAP."""

    def addSuccess(self, test):
        ok(test.id())

    def addFailure(self, test, err):
        fail(test.id(), self._exc_info_to_string(err, test))

    def addError(self, test, err):
        fail(test.id(), self._exc_info_to_string(err, test))

    def addSkip(self, test, reason):
        skip(test.id(), reason)

    def addSubTest(self, test, subtest, err):
        if err:
            fail(subtest.id(), self._exc_info_to_string(err, test))


def run_unittests(folder, pattern="test*.py"):
    """Runs the unittests of a folder."""
    unittest.defaultTestLoader.discover(folder, pattern).run(Result())
