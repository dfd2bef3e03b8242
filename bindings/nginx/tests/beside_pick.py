#!/usr/bin/env python3
"""Compares what nginx answers with what `lexicat pick` answers for the same fields.

usage: beside_pick.py LEXICAT SERVER REQUESTS FOLDER
           asks SERVER/strict and the other LOCATIONS, by curl, with files in FOLDER
       beside_pick.py --print COUNT SERVER
           prints COUNT requests to each of them, as a configuration for curl

The fields are made of SEED; some of each answer are always among them.
"""
import os
import random
import subprocess
import sys

TAGS = ["en", "fr", "de-CH", "zh-Hant"]
DEFAULT = "en"
TABLE = "de=fr, ja=nb, nb=de-CH, zh=zh-Hant"
# The locations, with the options by which the command answers the same.
LOCATIONS = {
    "strict": [],
    "lenient": ["--lenient"],
    "wide": ["--widen"],
    "always": [],
    "usual": ["--lenient", "--widen"],
    "next": ["--lenient", "--widen", "--fallbacks", TABLE],
}
# Those that ask again without the field where nothing is found.
NOT_STRICT = ["always", "usual", "next"]
FIELDS = 200
SEED = os.environ["SEED"]
# Fields that each of the answers is found by.
SURE = [*TAGS, "*;q=0"]
RANGES = (
    "en en-GB en-US fr fr-CA FR-ch de de-CH de-CH-1996 DE-AT zh zh-Hant zh-Hant-TW zh-Hans-CN ja"
    " nb i-klingon en-x-a-b zh-Hant-CN-x-private1-private2 * *"
).split()
WEIGHTS = ["", "", "", ";q=0.5", ";q=0.8", "; Q=0.123", ";q=0", ";q=1.000", " ;\tq=0.9"]
MALFORMED = [
    "en_US", "de;q=.8", "en;q=1.5", "fr;q=0.1234", "a b", "*-", "fr;level=1", "é", "-", '"fr"'
]
SEPARATORS = [", ", ",", " ,\t", ",,"]


def field(rng):
    """A field of a few elements, some of them malformed."""
    elements = []
    for _ in range(rng.choice([1, 1, 2, 3, 5, 9])):
        if rng.random() < 0.08:
            elements.append(rng.choice(MALFORMED))
        else:
            elements.append(rng.choice(RANGES) + rng.choice(WEIGHTS))
    return rng.choice(SEPARATORS).join(elements)


def fields(count):
    """So many fields, each another one."""
    rng = random.Random(f"{SEED} fields")
    made = dict.fromkeys(SURE)
    while len(made) < count:
        made[field(rng)] = None
    return list(made)


def said(words, field, tags=(), document=b""):
    """What the command prints of a field. One that is refused (8, 9) counts as "*"."""
    words_of_it = [*words, "--", field, *tags]
    run = subprocess.run(words_of_it, input=document, capture_output=True, check=False)
    if run.returncode == 3 and run.stderr.startswith((b"refused 8:", b"refused 9:")):
        return said(words, "*", tags, document)
    if run.returncode not in (0, 1):
        sys.exit(f"lexicat ended with {run.returncode} for {field!r}: {run.stderr.decode()}")
    return run.stdout


def found(path, words, field, *more):
    """What the command prints of a field by the rules of a location."""
    answer = said([*words, *LOCATIONS[path]], field, *more)
    if answer == b"nothing\n" and path in NOT_STRICT:
        return said([*words, *LOCATIONS[path]], "*", *more)
    return answer


def picked(lexicat, path, asked):
    """The tag that the command picks, as TAGS has it, or nothing."""
    answer = found(path, [lexicat, "pick", "--default", DEFAULT], asked, TAGS).decode().split()
    return "" if answer == ["nothing"] else {tag.lower(): tag for tag in TAGS}[answer[1]]


def configuration(server, questions):
    """What curl reads to ask the questions, each of them a path and a field."""
    requests = []
    for path, asked in questions:
        quoted = asked.replace("\\", "\\\\").replace('"', '\\"').replace("\t", "\\t")
        requests.append(f'url = "{server}/{path}"\nheader = "Accept-Language: {quoted}"\n')
    return "next\n".join(requests)


def questions_of(count):
    """So many fields, each of them in every location."""
    return [(path, asked) for asked in fields(count) for path in LOCATIONS]


def main():
    if sys.argv[1] == "--print":
        print(configuration(sys.argv[3], questions_of(int(sys.argv[2]))), end="")
        return
    lexicat, server, requests, folder = sys.argv[1:]
    questions = questions_of(FIELDS)
    wanted = {(path, asked): picked(lexicat, path, asked) for path, asked in questions}
    rng = random.Random(f"{SEED} requests")
    asked = [rng.choice(questions) for _ in range(int(requests) - len(questions))] + questions
    config = os.path.join(folder, "curl.conf")
    with open(config, "w", encoding="utf-8") as file:
        file.write(configuration(server, asked))
    run = subprocess.run(["curl", "-sS", "-K", config], stdout=subprocess.PIPE, check=True)
    answers = run.stdout.decode().split("\n")[:-1]
    wrong = [
        f"wanted {wanted[question]!r}, not {answer!r}, of {question}"
        for question, answer in zip(asked, answers)
        if answer != wanted[question]
    ]
    print("\n".join(wrong[:20]))
    counts = {tag: list(wanted.values()).count(tag) for tag in [*TAGS, ""]}
    print(f"{len(answers)} answers to {len(questions)} questions, {len(wrong)} wrong")
    if wrong or len(answers) != len(asked) or 0 in counts.values():
        sys.exit(f"wrong, or too few: {counts}")


if __name__ == "__main__":
    main()
