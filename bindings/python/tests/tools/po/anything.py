"""Prints language maps of random ids, texts, comments and flags, the same ones of each SEED."""
import json
import os
import random
from urllib.parse import unquote

chance, maps = random.Random(f"{os.environ['SEED']} anything"), {}
PIECES = ["a", "B", " ", "%", "%d", "%s", "{", "}", "{x}", '"', "\\", "\\n", "\t", "\r", "\u2028",
          "\x85", "\ufeff", "é", "\U0001f600", "#", "|", "/", ":", "%3A", "+", "&", "<b>", "\u200b",
          "\xa0", "'", "~", 'msgid "x"', "@"]


def text(*more):
    return "".join(chance.choice([*PIECES, *more]) for _ in range(chance.randint(1, 8)))


while len(maps) < 200:
    message = text().replace("\t", "").replace("\r", "").lstrip("@")
    if not message or unquote(message) in maps or len(message.encode()) > 128:
        continue
    forms, end = chance.choice([1, 1, 2]), chance.choice(["", "\n"])
    labels = {lang: ["x" + text("\n") + "x" + end for _ in range(forms)] for lang in ("en", "de")}
    for lang in ("x-note", "x-note-de"):
        if chance.random() < 0.5:
            labels[lang] = text("\n")
    if chance.random() < 0.3:
        labels["x-flags"] = chance.sample(["no-wrap", "range: 0..3", "no-c-format", "a b"], 2)
    maps[message] = labels
print(json.dumps(maps))
