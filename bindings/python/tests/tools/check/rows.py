"""Prints labels to compare, a line [language, sources, texts] each.

usage: rows.py by-hand LABELS VERDICTS    those of rows.json, and what they differ in
       rows.py generated LABELS           20,000 of random pieces, the same ones of each SEED, and
                                          some long ones
"""
import json
import os
import random
import sys

import children

HERE = os.path.dirname(os.path.realpath(__file__))
LANGUAGES = ["fr", "ja", "ru", "uk", "lv", "sl", "pt-br", "@none", "sr-latn", "ar"]
PIECES = [
    "%", "%%", "%d", "%s", "%1$s", "%2$d", "%-5.1f", "%*d", "%.*s", "%2$*1$d", "%ld", "%lf", "%td",
    "%m", "%1$m", "%r", "%@", "%(", "%(name)s", "%(name", ")s", "%{name}", "%<name>s", "%<PRIu64>",
    "%<PRIxMAX>", "% d", "% ", "%-e", "%time", "%I64u", "%'d", "50%", "1", "9", "$", "*", ".", "l",
    "{", "}", "{{", "}}", "{name}", "{ name }", "{0}", "{}", "{:d}", "{a!r:>5}", "{a[0]}", "{a-b}",
    "{{a-b}}", "{{- a}}", "{{a, b}}", "{n, plural, one {", "{n,select,", "other {", "=1 {", "# x",
    "{d, date, short}", "{d, foo}", "\\", "\\x", "<", ">", "/", "<b>", "</b>", "<b", "<br>",
    "<br/>",
    "<br />", "<x/>", "<0>", "</0>", "<a href='{u}'>", "</a>", "<xliff:g id=\"1\">", "</xliff:g>",
    "<file>", "&lt;", "&", " ", "\n", "\r\n", "\t", "\0", "a", "Z", "é", "\u0660", "\xa0",
    "\u2028",
    "\ufeff", "\x85", "\x1c", "\U0001f600", "\u202e", "ſ", "K", "word", ",", "'",
]


def by_hand():
    """The labels of rows.json, and what they differ in."""
    with open(f"{HERE}/rows.json", encoding="utf-8") as file:
        rows = json.load(file)
    for source, text, lacks, beside in rows["texts"]:
        yield ["xx", [source], [text]], [[lacks, beside]]
    for lang, sources, texts, verdicts in rows["labels"]:
        yield [lang, sources, texts], verdicts


def generated():
    """Labels of random pieces: some by chance alone, others by changes to their source."""
    chance = random.Random(f"{os.environ['SEED']} rows")

    def text(most=8):
        return "".join(chance.choice(PIECES) for _ in range(chance.randint(0, most)))

    def changed(source):
        parts = [chance.choice(PIECES) if chance.random() < 0.2 else it for it in source]
        return parts if chance.random() < 0.7 else chance.sample(parts, len(parts))

    for _ in range(20000):
        lang, forms = chance.choice(LANGUAGES), chance.choice([1, 1, 1, 2, 3, 4])
        if chance.random() < 0.3:
            sources = [text() for _ in range(chance.randint(1, 2))]
            yield [lang, sources, [text() for _ in range(forms)]]
            continue
        source = [chance.choice(PIECES) for _ in range(chance.randint(1, 8))]
        yield [lang, ["".join(source)], ["".join(changed(source)) for _ in range(forms)]]
    for one, other in ("%", "{"), ("<a ", "{a,"), ("{a,plural,", "}"), ("%(", "%*"), (" %1$", "{ "):
        yield ["fr", [one * (60000 // len(one))], [other * (60000 // len(other))]]


if sys.argv[1] == "by-hand":
    with open(sys.argv[2], "w") as labels, open(sys.argv[3], "w") as wanted:
        for label, verdicts in by_hand():
            print(children.written(label), file=labels)
            print(children.written(verdicts), file=wanted)
else:
    with open(sys.argv[2], "w") as labels:
        for label in generated():
            print(children.written(label), file=labels)
