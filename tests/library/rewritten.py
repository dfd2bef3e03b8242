#!/usr/bin/env python3
"""Makes sites as other programs write them, without blanks, with questions and their answers.

usage: rewritten.py SITES QUESTIONS > FILE    (of each site so many questions: `text expect FILE`)

The sites are made at random, always the same ones of a SEED, and each is written in one of three
manners: by PHP's `json_encode`, by Python's `json.dumps`, or as `encoding/json` of Go writes it.
Each manner has escapes of its own (`\\u00df`, `\\/`, `\\u0026`, pairs of surrogates). What is to be
answered is said by the labels of which a site is made, and by no program of Silkwaram.
"""
import json
import os
import random
import struct
import subprocess
import sys

SEED = int(os.environ.get("SEED", "1"))
FOUND, NOTHING = 0, 1
LANGUAGES = ["de", "en", "fr", "ja", "pl", "zh"]
# Of which ids and texts are made: what a manner escapes, and what could be taken for the border of
# two rows.
PIECES = ["Schließen", "Größe", "é", "サイズ", "😀", "𐍈", "\u2028", "\u2029", "a", "b", "m", "z"]
PIECES += ["A", "0", " ", "~", "/", "</b>", "<b>", "&", "&amp;", "u00df", "ud83d", '"', "\\"]
PIECES += ["\\u0041", '\\"', '],["', '","', '],["m","en",5,"paris",0,["x"]', "],", "[", '"]],["']
WILD = ["\n", "\t", "\r", "\b", "\f", "\x01", "\x1f", "\x7f"]

PHP = """
while (($line = fgets(STDIN)) !== false) {
    echo json_encode(json_decode($line, false, 64, JSON_THROW_ON_ERROR)), "\\n";
}
"""

# Beside quotes, backslashes and controls Go escapes what has a meaning in pages and in scripts.
GO = {"\n": "n", "\r": "r", "\t": "t", "\b": "b", "\f": "f", '"': '"', "\\": "\\"}
GO_BY_NUMBER = "<>&\u2028\u2029"


def go_string(text):
    """A string as `json.Marshal` writes it."""

    def written(letter):
        if letter in GO:
            return "\\" + GO[letter]
        return f"\\u{ord(letter):04x}" if letter < " " or letter in GO_BY_NUMBER else letter

    return '"' + "".join(map(written, text)) + '"'


def as_go(value):
    """A value as `json.Marshal` writes it, its members in their order."""
    if isinstance(value, str):
        return go_string(value)
    if isinstance(value, list):
        return "[" + ",".join(map(as_go, value)) + "]"
    if isinstance(value, dict):
        return "{" + ",".join(f"{go_string(name)}:{as_go(it)}" for name, it in value.items()) + "}"
    return json.dumps(value)


def as_python(value):
    """A value as `json.dumps` writes it without blanks."""
    return json.dumps(value, separators=(",", ":"))


def as_php(values):
    """The values as `json_encode` writes them."""
    given = "".join(json.dumps(it) + "\n" for it in values)
    return subprocess.check_output(["php", "-r", PHP], input=given, text=True).splitlines()


def text_of(rng, most, pieces):
    return "".join(rng.choice(pieces) for _ in range(rng.randint(0, most)))


def id_of(rng):
    """A message id: 1 to 128 bytes, of which the first is no @."""
    made = text_of(rng, 5, PIECES) or rng.choice(PIECES)
    return made if len(made.encode()) <= 128 else rng.choice(PIECES)


def labels_of(rng):
    """The labels of a site, by id and language: texts, or None where the label was deleted."""
    ids = {id_of(rng) for _ in range(rng.choice([0, 1, 2, 8, 40, 120]))}
    return {
        (id, language): None
        if rng.random() < 0.1
        else [text_of(rng, 4, PIECES + WILD) for _ in range(rng.choice([1, 1, 1, 2, 3]))]
        for id in sorted(ids)
        for language in rng.sample(LANGUAGES, rng.randint(1, 4))
    }


def site_of(labels):
    """What the document of a site with these labels has (docs/FORMATS.md)."""
    keys = sorted(labels, key=lambda it: (it[0].encode(), it[1].encode()))
    rows = [[*key, 5, "paris", at, labels[key]] for at, key in enumerate(keys)]
    return {"cells": rows, "kind": "site", "site": "paris", "version": 2}


def label_text(texts):
    """A label as an answer has it."""
    return json.dumps(texts, ensure_ascii=False, separators=(",", ":"))


def question(rng, labels, ids):
    """A question by some languages, best first, and its answer: a call, an id, a field, a status, a
    text."""
    id = rng.choice(ids) if ids and rng.random() < 0.8 else id_of(rng)
    asked = rng.sample(LANGUAGES, rng.randint(1, 3))
    field = ", ".join(f"{it};q=0.{9 - at}" for at, it in enumerate(asked))
    live = [(it, at) for at, it in enumerate(asked) if labels.get((id, it)) is not None]
    call = rng.choice("ltf")
    if call == "f":
        lines = [f"{it} {900 - at * 100} {label_text(labels[id, it])}\n" for it, at in live]
        answer = f"filter {len(lines)}\n" + "".join(lines)
    elif not live:
        answer = "nothing\n" if call == "l" else ""
    else:
        texts = labels[id, live[0][0]]
        answer = f"matched {live[0][0]} {label_text(texts)}\n" if call == "l" else texts[0]
    return call, id, field, FOUND if live else NOTHING, answer


def framed(text):
    content = text.encode()
    return struct.pack("<I", len(content)) + content


def main():
    rng, sites, questions = random.Random(SEED), int(sys.argv[1]), int(sys.argv[2])
    made = [labels_of(rng) for _ in range(sites)]
    values = [site_of(labels) for labels in made]
    by_php = as_php(values[::3])
    for at, (labels, value) in enumerate(zip(made, values)):
        written = by_php[at // 3] if at % 3 == 0 else (as_python, as_go)[at % 3 - 1](value)
        assert json.loads(written) == value, f"site {at} is another one as it is written"
        sys.stdout.buffer.write(framed("d") + framed(written + rng.choice(["", "\n"])))
        ids = sorted({id for id, _ in labels})
        for _ in range(questions):
            call, id, field, status, answer = question(rng, labels, ids)
            for it in f"{call}{status}", id, field, answer:
                sys.stdout.buffer.write(framed(it))


main()
