#!/usr/bin/env python3
"""What all front ends are asked, and what they have to answer.

usage: asked.py LEXICAT FOLDER [TABLE]
           writes site.json and asked.json there: 500 headers, made of SEED, each with the answers,
           by a table of fallbacks or without one
       asked.py --compare FOLDER ANSWERS.json
           compares the answers of a front end, a list of one object for each header

The rules are the defaults of all front ends: malformed elements are skipped, a language finds its
regions, labels of private use are not offered, and a reader who excludes the default too gets it
nevertheless. The answers are those of `lexicat` for these rules:

- `language`: the one of the tags that the reader gets, in lower case;
- `label`: of the message that has all tags, the text of the label that the reader gets;
- `few`: the same of a message that has some of them;
- `few_in`: of that message, the text of the label for `language`, or else for the default.

A front end has those of the four that it gives a reader. Where it is said to have fallbacks of its
own, headers are passed over by which a region finds a sibling (`pt-PT` where there is `pt-BR`), or a
region of Chinese its script.
"""
import concurrent.futures
import json
import os
import random
import re
import subprocess
import sys

COUNT = 500
TAGS = ["de-CH", "en", "en-AU", "fr", "fr-CA", "ja", "pt-BR", "sr-Latn", "zh-Hans", "zh-Hant"]
SOME = ["de-CH", "en", "fr", "zh-Hant"]
DEFAULT = "en"
# What no reader may see.
NOTE = "ask Anna"
RANGES = TAGS + [
    "de", "de-CH-1996", "de-AT", "en-GB", "en-US", "EN", "en-x-note", "fr-FR", "fr-CA-x-a", "ja-JP",
    "pt", "pt-PT", "sr", "sr-Cyrl", "zh", "zh-TW", "zh-Hant-HK", "zh-Hans-CN", "x-note", "x", "*",
    "ar", "i-klingon", "da", "es-419",
]
MALFORMED = ["en_US", "fr;q=2", "\xe9", "a--b", "languages", "de;q", "ja;q=0.0000", "", "-", "fr fr"]
WEIGHTS = ["", "", "", ";q=1", ";q=0.9", ";q=0.5", "; q=0.1", ";q=0", ";Q=0.001", " ;q=0.500"]
FIXED = [None, "", "*", "*;q=0", "en;q=0", "x-note", "x-note, fr;q=0.1", "x-note, *;q=0", "pt"]


def element(rng):
    if rng.random() < 0.12:
        return rng.choice(MALFORMED)
    return rng.choice(RANGES) + rng.choice(WEIGHTS)


def headers():
    rng = random.Random(f"{os.environ['SEED']} headers")
    found = list(FIXED)
    while len(found) < COUNT:
        comma = rng.choice([",", ", ", " , ", ",\t"])
        made = comma.join(element(rng) for _ in range(rng.randint(1, 7))).strip(" \t")
        if made not in found:
            found.append(made)
    return found


def has_own_fallback(header):
    """Whether own fallbacks from a region to other regions and scripts of its language matter."""
    header = (header or "").lower()
    excluded = re.findall(r"([a-z0-9-]+) *; *q=0(?![.0-9])", header)
    tags = [it.lower() for it in TAGS]
    tags = {it for it in tags if not any(f"{it}-".startswith(f"{out}-") for out in excluded)}
    for it in re.findall(r"[a-z0-9-]+", header):
        parts = it.split("-")
        shorter = {"-".join(parts[:count]) for count in range(1, len(parts) + 1)}
        if len(parts) > 1 and parts[0] in ("de", "pt", "sr", "zh") and not shorter & tags:
            return True
    return False


def site():
    """Language maps: a message with all tags, one with some; both have a note for translators."""
    return {
        name: {**{it: f"{name} {it.lower()}" for it in tags}, "x-note": NOTE, "@none": "none"}
        for name, tags in (("all", TAGS), ("some", SOME))
    }


class Command:
    def __init__(self, lexicat, document, table):
        self.lexicat, self.document = lexicat, document
        self.how = ["--lenient", "--widen", "--default", DEFAULT]
        self.how += ["--fallbacks", table] if table else []

    def run(self, header, *words):
        """What the command prints for a header; None if that is nothing."""
        # (an argument has to be UTF-8, and a letter that is not ASCII is in no range either)
        field = "*" if header is None else header.replace("\xe9", "_")
        asked = [self.lexicat, *words[:1], *self.how, *words[1:]]
        at = asked.index("FIELD")
        got = subprocess.run([*asked[:at], "--", field, *asked[at + 1:]], input=self.document,
                             capture_output=True, check=False)
        if got.returncode not in (0, 1):
            sys.exit(f"{field!r}: {got.stderr.decode()}")
        return got.stdout.decode() if got.returncode == 0 else None

    def found(self, header, *words):
        return self.run(header, *words) or self.run(None, *words)

    def language(self, header):
        return self.found(header, "pick", "FIELD", *TAGS).split(" ")[1].strip()

    def text(self, header, name):
        words = ["lookup", "--id", name, "--offer", "*, x;q=0", "FIELD"]
        return json.loads(self.found(header, *words).split(" ", 2)[2])[0]

    def answers(self, header):
        language = self.language(header)
        return {
            "language": language,
            "label": self.text(header, "all"),
            "few": self.text(header, "some"),
            "few_in": self.text(language, "some"),
        }


def write(lexicat, folder, table=None):
    new = subprocess.run([lexicat, "new", "--site", "paris"], stdout=subprocess.PIPE, check=True)
    both = new.stdout + json.dumps(site()).encode()
    made = subprocess.run([lexicat, "import", "--now", "1"], input=both, stdout=subprocess.PIPE,
                          check=True)
    command = Command(lexicat, made.stdout, table)
    asked = headers()
    with concurrent.futures.ThreadPoolExecutor(os.cpu_count()) as pool:
        wanted = list(pool.map(command.answers, asked))
    with open(f"{folder}/site.json", "wb") as it:
        it.write(made.stdout)
    with open(f"{folder}/asked.json", "w", encoding="utf-8") as it:
        json.dump({
            "tags": TAGS, "default": DEFAULT, "fallbacks": table, "headers": asked,
            "wanted": wanted, "own": [has_own_fallback(it) for it in asked],
        }, it)
    different = {json.dumps(it) for it in wanted}
    print(f"{len(asked)} headers, {len(different)} different answers")
    if len(different) < 15:
        sys.exit("too few different answers")


def compare(folder, path):
    with open(f"{folder}/asked.json", encoding="utf-8") as it:
        asked = json.load(it)
    with open(path, encoding="utf-8") as it:
        given = json.load(it)
    answers, wrong, count = given["answers"], [], 0
    if len(answers) != len(asked["headers"]):
        sys.exit(f"{len(answers)} answers to {len(asked['headers'])} headers")
    for header, got, wanted, is_own in zip(asked["headers"], answers, asked["wanted"],
                                           asked["own"]):
        if is_own and given.get("own"):
            continue
        count += 1
        expected = {name: wanted[name] for name in got}
        if got != expected or not got:
            wrong.append(f"{header!r}: {got}, and not {expected}")
        if NOTE in got.values():
            wrong.append(f"{header!r}: a reader sees a note")
    print("\n".join(wrong[:20]))
    print(f"{count} headers, {len(wrong)} wrong")
    if wrong or count < COUNT // 2:
        sys.exit(1)


def main(words):
    if words[0] == "--compare":
        compare(*words[1:])
    else:
        write(*words)


if __name__ == "__main__":
    main(sys.argv[1:])
