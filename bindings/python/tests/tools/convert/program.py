"""lexicat-convert in children of one Python, which has read it once; and what its tests share. A
test imports this first: it goes on in a folder of its own, by the Python that lexicat-convert runs
by. It takes what ../built.py says."""
import importlib
import json
import os
import sys
import traceback

sys.dont_write_bytecode = True
PYTHON = "/usr/bin/python3"
if sys.executable != PYTHON and os.path.exists(PYTHON):
    os.execv(PYTHON, [PYTHON, *sys.argv])
sys.path.insert(0, os.path.dirname(os.path.dirname(os.path.abspath(__file__))))
import built  # noqa: E402
import in_children  # noqa: E402
from built import tap  # noqa: E402
from silkwaram.tools.convert import command  # noqa: E402

CASES = f"{built.TESTS}/convert/cases"
for _name in command.MODULES.values():
    importlib.import_module(f"silkwaram.tools.convert.{_name}")
FORMATS, OF_SOURCE = list(command.MODULES), command.OF_SOURCE
os.mkdir(f"{built.room}/here")
os.chdir(f"{built.room}/here")
faults = []


def fault(what):
    """Names a fault of the test that runs."""
    faults.append(what)


def test(name, call, *words):
    """Runs a test, which returns what it came to, and fails by its faults or by an exception."""
    faults.clear()
    said = ""
    try:
        said = call(*words)
    except Exception:  # any fault of a test is its failure
        fault(traceback.format_exc())
    tap.report(name, faults[:60], said or "")


def run(*words, data=b""):
    """The status, what is printed, and what is written to standard error."""
    return in_children.ended(lambda: command.main(list(words)), words, data)


def maps(value):
    """Language maps as they are printed."""
    ordered = {key: dict(sorted(labels.items())) for key, labels in sorted(value.items())}
    return (json.dumps(ordered, ensure_ascii=False, separators=(",", ":")) + "\n").encode()


def back_and_forth(words, data, name):
    """Takes a file in, out, and in again: the maps have to be the same; returns both."""
    status, came, errors = run(words[0], "in", *words[1:], data=data)
    if status not in (0, 7):
        fault(f"{name}: not read: {errors}")
        return {}, b""
    status, went, said = run(words[0], "out", *words[1:], data=came)
    if status:
        fault(f"{name}: does not go out: {said}")
    status, again, said = run(words[0], "in", *words[1:], data=went)
    if status or again != came:
        fault(f"{name}: comes back otherwise: {said}")
    return json.loads(came), went
