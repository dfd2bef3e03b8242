#!/usr/bin/env python3
"""What is done to one part of a catalogue in parts, in steps that any engine may repeat.

    steps.py STEP PART      makes FOLDER/STEP/PART; the folder is where it runs
    steps.py whole PART     all steps of a part, in their order

Under GNU parallel: ls maps | parallel --retries 3 --joblog log steps.py whole {}

A step reads files that no step edits, takes its time as an argument, and renames its result into
place. So it writes the same bytes whoever runs it, and however often, `import` too; and who reads a
result never reads half of one. What a step that was killed leaves is a file beside it, whose name
ends in `.new`.

The folder has maps/PART, corrected/PART and mended/PART (language maps, by examples/parts/cut),
paris.json and tokyo.json (empty sites), and told.json (the summary of the second): `prepare` here
makes them. Needed: `lexicat` in PATH, and the package silkwaram for Python.
"""
import contextlib
import hashlib
import json
import os
import subprocess
import sys
import uuid

TAGS = "ar cs da de el en es fi fr hi it ja ko nl pl pt-BR ru sv tr zh-Hant".split()

# Commands of bash, for which "$1" is the part. The empty answer ends with 1, which no engine knows
# from a failure.
COMMANDS = {
    "begun": 'cat paris.json maps/"$1" | lexicat import --now 100',
    "paris": 'cat begun/"$1" corrected/"$1" | lexicat import --now 200',
    "deltas": 'cat begun/"$1" told.json | lexicat delta',
    "taken": 'cat tokyo.json deltas/"$1" | lexicat take',
    "tokyo": 'cat taken/"$1" mended/"$1" | lexicat import --now 300',
    "both": 'cat paris/"$1" tokyo/"$1" | lexicat sync',
    "missing": 'lexicat missing --lang en < tokyo/"$1" || [ $? -eq 1 ]',
}
STEPS = [*COMMANDS, "bundles"]


def readers(number):
    """Accept-Language of readers who know three languages, no two of them alike."""
    for at in range(number):
        one, two, three = (TAGS[at * prime % 20] for prime in (1, 7, 13))
        yield f"{one}-{at % 1000:03}, {two};q=0.{1 + at % 9}, {three};q=0.05"


def bundles(both, number):
    """A line for each reader: the size and a sum of what this part gives that reader. The site is
    read once for all of them."""
    import silkwaram

    with open(both, "rb") as sites:
        site = silkwaram.Site.open(sites.readline())
    for field in readers(number):
        bundle = site.bundle(field, default="en")
        text = json.dumps(bundle, ensure_ascii=False, separators=(",", ":")).encode()
        yield f"{len(text)} {hashlib.sha256(text).hexdigest()} {field}\n".encode()


def step(name, part, folder="."):
    """Runs a step in the folder, which all machines see, and returns the part."""
    if "/" in part:
        raise ValueError(f"no name of a part: {part!r}")
    result = f"{folder}/{name}/{part}"
    os.makedirs(f"{folder}/{name}", exist_ok=True)
    new = f"{result}.{uuid.uuid4().hex}.new"
    try:
        with open(new, "xb") as out:
            if name == "bundles":
                out.writelines(bundles(f"{folder}/both/{part}", int(os.environ.get("READERS", 100))))
            else:
                words = ["bash", "-euo", "pipefail", "-c", COMMANDS[name], name, part]
                subprocess.run(words, cwd=folder, stdin=subprocess.DEVNULL, stdout=out, check=True)
            # An engine that was told of the end never asks again, though a machine may stop then.
            out.flush()
            os.fsync(out.fileno())
        os.replace(new, result)
    except BaseException:
        with contextlib.suppress(FileNotFoundError):
            os.unlink(new)
        raise
    return part


def whole(part, folder="."):
    """Runs all steps of a part, and returns the part."""
    for name in STEPS:
        step(name, part, folder)
    return part


if __name__ == "__main__":
    if len(sys.argv) != 3 or sys.argv[1] not in [*STEPS, "whole"]:
        sys.exit(f"usage: steps.py {{whole,{','.join(STEPS)}}} PART")
    try:
        if sys.argv[1] == "whole":
            whole(sys.argv[2])
        else:
            step(*sys.argv[1:])
    except (ValueError, OSError, subprocess.CalledProcessError) as fault:
        sys.exit(f"steps.py: {fault}")
