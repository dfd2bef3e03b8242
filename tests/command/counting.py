"""Counts the instructions that the command takes, by valgrind: the same on a machine under load."""
import os
import re
import subprocess

HERE = os.path.dirname(os.path.realpath(__file__))
LEXICAT = os.environ.get("LEXICAT", os.path.normpath(f"{HERE}/../../build/lexicat"))
COUNTING = ["valgrind", "--tool=cachegrind", "--cache-sim=no", "--cachegrind-out-file=/dev/null"]


def instructions(words, given):
    """How many instructions the command takes for these words over an input, which it answers."""
    ran = subprocess.run([*COUNTING, LEXICAT, *words], input=given, capture_output=True)
    found = re.search(rb"I +refs: +([\d,]+)", ran.stderr)
    if ran.returncode not in (0, 1) or not found:
        raise ValueError(f"{words[:3]}: status {ran.returncode}: {ran.stderr[-300:]}")
    return int(found[1].replace(b",", b""))
