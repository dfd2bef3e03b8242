#!/usr/bin/env python3
"""Hands rows of wrong shapes to the command, of sites, deltas, summaries and scripts, in both
versions: with a member more, with members of every other kind, with labels of many texts, and what
follows a refused row. Each is refused by its line, with the row, the document and the count.

Takes build/lexicat, or the command that LEXICAT names.
"""
import json
import os
import sys

sys.dont_write_bytecode = True
sys.path.insert(0, os.path.dirname(os.path.realpath(__file__)))
from hostile import Kind, each_kind, run, texts  # noqa: E402

# Values, each with its kind; no member of a row is of another kind than these.
OTHERS = (
    ("null", "null"), ("other", "true"), ("number", "5"), ("text", '"x"'), ("texts", "[]"),
    ("texts", '["x"]'), ("texts", texts(*["x"] * 70)), ("other", "{}"), ("other", '{"a":[1]}'),
    ("other", "[[]]"), ("other", "[[[[[[]]]]]]"), ("other", '["x",5]'), ("other", "[null]"),
    ("other", "[1,2,3,4,5,6]"), ("other", "[1,2,3,4,5,6,7]"), ("other", "[" + "{}," * 99 + "[]]"),
    ("other", '["x",["x"]]'), ("other", texts(*["x"] * 64)[:-1] + ",5]"),
    ("other", texts(*["x"] * 65)[:-1] + ",5]"), ("other", texts(*["x"] * 66)[:-1] + ",[]]"),
    ("other", "[" * 100 + "]" * 100),
)


def refuses(checks, case, kind, rows, number, row, text=None):
    words, given = kind.given(rows)
    case = f"{kind.name} of version {kind.version}: {case}"
    checks.refuses(case, words, given, number, text=text, row=row, document=kind.document)


def members_of_another_kind(checks):
    for kind in each_kind("site", "delta", "summary", "edit"):
        good = kind.row()
        for at, kinds in enumerate(kind.kinds):
            for found, value in OTHERS:
                row = kind.joined([*good[:at], value, *good[at + 1:]])
                if found not in kinds:
                    refuses(checks, f"{value[:40]} at {at}", kind, [row], 20, 0)


def members_more_and_less(checks):
    for kind in each_kind("site", "delta", "summary", "edit"):
        good = kind.row()
        for value in ("null", "5", '"x"', "[]", "{}", "[" * 90 + "]" * 90, texts(*["x"] * 999)):
            row = kind.joined([*good, value])
            refuses(checks, f"a member more, {value[:40]}", kind, [row], 20, 0)
        for count in range(len(good)):
            refuses(checks, f"{count} members", kind, [kind.joined(good[:count])], 20, 0)
        for count in (7, 64, 65, 66, 1000):
            row = kind.joined(['"x"'] * count)
            refuses(checks, f"{count} texts for a row", kind, [row], 20, 0)
        for value in ("null", "true", "5", '"x"', "{}", '{"a":[]}', "[[]]"):
            refuses(checks, value, kind, [value], 20, 0)


def labels_of_many_texts(checks):
    for kind in each_kind("site", "delta", "edit"):
        front = kind.row()[:-1]
        for count in (0, 65, 66, 1000, 100_000):
            many, said = texts(*[""] * count), f"label has {count} texts"
            refuses(checks, said, kind, [kind.joined([*front, many])], 12, 0, said)
            long = texts("x" * 65_536, *["x"] * (count - 1)) if count else many
            refuses(checks, f"{said}, one long", kind, [kind.joined([*front, long])], 12, 0, said)
            for case, at, value, number in (
                ("an id", 0, '""', 10), ("a language", 1, '""', 1),
                *([("a site", 3, '"A"', 27)] if kind.version == "2" else []),
            ):
                row = kind.joined([*front[:at], value, *front[at + 1:], many])
                refuses(checks, f"{case} before {said}", kind, [row], number, 0)
        for count in (5, 6, 7, 63, 64, 65, 66, 100_000):
            for value in ("null", "5", "true", "[]", '["x"]', "{}"):
                mixed = f"{texts(*['x'] * count)[:-1]},{value}]"
                row = kind.joined([*front, mixed])
                refuses(checks, f"{value} after {count} texts", kind, [row], 20, 0)
        long = texts(*["x"] * 63, "x" * 65_536)
        said = "text 63 is over 65535 bytes"
        refuses(checks, said, kind, [kind.joined([*front, long])], 11, 0, said)


def steps_of_another_shape(checks):
    for version in ("1", "2"):
        kind = Kind("edit", version)
        cell = f"[{','.join(kind.row())}]"
        steps = (
            (["edit", "0", cell], ["number", "cell"]),
            (["merge", "0", "0"], ["number", "number"]),
            (["filter", "0", '"m"', '"basic"', '"en"'], ["number", "text", "scheme", "text"]),
            (["lookup", "0", '"m"', '"en"', '"en"'], ["number", "text", "text", "default"]),
            (["cells", "0"], ["number"]),
            (["tell", "0"], ["number"]),
            (["post", "0", "0"], ["number", "number"]),
            (["deliver", "0"], ["number"]),
        )
        fits = {
            "number": {"number"}, "text": {"text"}, "scheme": set(), "default": {"text", "null"},
            "cell": set(),
        }
        for members, kinds in steps:
            word, parts = json.dumps(members[0]), members[1:]
            for at, part in enumerate(kinds):
                for found, value in OTHERS:
                    if found not in fits[part]:
                        row = f"[{','.join([word, *parts[:at], value, *parts[at + 1:]])}]"
                        refuses(checks, f"{members[0]}, {value[:40]} at {at}", kind, [row], 20, 0)
            for value in ("null", "0", '"x"', "[]", "{}", texts(*["x"] * 99)):
                row = f"[{','.join([word, *parts, value])}]"
                refuses(checks, f"{members[0]}, {value[:40]} more", kind, [row], 20, 0)
            row = f"[{','.join([word, *parts[:-1]])}]"
            refuses(checks, f"{members[0]}, one less", kind, [row], 20, 0)
        for word in ("null", "5", "[]", '["edit"]', "{}", '"Edit"', '"edits"', '""'):
            refuses(checks, f"the word {word[:20]}", kind, [f"[{word},0,{cell}]"], 20, 0)


def what_follows_a_refused_row(checks):
    for kind in each_kind("site", "delta", "summary", "edit"):
        good, less, bad = kind.joined(kind.row("b")), kind.joined(kind.row("a")), kind.joined(["5"])
        refuses(checks, "the second row", kind, [good, bad], 20, 1)
        refuses(checks, "the first of two", kind, [good, bad, kind.joined(kind.row(""))], 20, 1)
        refuses(checks, "a row before one of another shape", kind, [kind.joined(kind.row("")), bad],
                10, 0)
        refuses(checks, "nested arrays after it", kind, [good, bad, "[" * 100 + "]" * 100], 20, 1)
        if kind.name != "edit":
            refuses(checks, "a lesser key after it", kind, [bad, good, less], 20, 0)
            refuses(checks, "a lesser key before it", kind, [good, less, bad], 21, 1)
        for case, end in (
            ("a bracket less", "[5"), ("a comma more", "[5,]"), ("1e400", "1e400"),
            ("125 levels", "[" * 126 + "]" * 126), ("no value", ""), ("a name", '{"a"}'),
        ):
            words, given = kind.given([bad, end])
            case = f"{kind.name} of version {kind.version}: {case} after a refused row"
            checks.refuses(case, words, given, 19, document=kind.document)
            words, given = kind.given([kind.joined([*kind.row(), f"[{end}]" if end else end])])
            checks.refuses(f"{case}, in it", words, given, 19, document=kind.document)


run(members_of_another_kind, members_more_and_less, labels_of_many_texts, steps_of_another_shape,
    what_follows_a_refused_row)
