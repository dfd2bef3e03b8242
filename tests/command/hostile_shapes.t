#!/usr/bin/env python3
"""Hands documents of wrong shapes to the command: wrong members, versions and names, rows that are
refused, several documents of which one is wrong, and language maps. Each is answered, or refused by
its line, with the row and the document.

Takes build/lexicat, or the command that LEXICAT names.
"""
import json
import os
import sys

sys.dont_write_bytecode = True
sys.path.insert(0, os.path.dirname(os.path.realpath(__file__)))
from hostile import cell, run, site, texts  # noqa: E402


def documents_of_another_shape(checks):
    for given in ("[]", "5", "null", '"a"', "{}", '{"kind":"site","site":"a","version":2}'):
        checks.refuses_site(f"the document {given}", given, 20)
    for case, old, new in (
        ("no kind", '"kind":"site",', ""),
        ("another kind", ':"site"', ':"delta"'),
        ("a number for a kind", ':"site"', ":5"),
        ("a further member", "}", ',"x":1}'),
        ("an object for cells", "[]", "{}"),
        ("null for cells", "[]", "null"),
        ("a number for a name", '"a"', "1"),
        ("null for a name", '"a"', "null"),
        ("no version", ',"version":2', ""),
    ):
        checks.refuses_site(case, site().replace(old, new), 20)
    for version in ('"2"', "-1", "2.0", "2e0", "18446744073709551616", "null", "1"):
        checks.refuses_site(f"the version {version}", site(version=version), 20)
    for name in ("4294967296", "-1"):
        checks.refuses_site(f"the number {name} of a site", site(name=name, version="1"), 20)
    given = site(version="3").replace(':"site"', ':"x"')
    checks.refuses_site("another kind and another version", given, 20)
    for version in ("3", "0", "18446744073709551615"):
        checks.refuses_site(f"the version {version}", site(version=version), 28)
    checks.refuses_site("version 3 without members", '{"kind":"site","version":3}', 28)
    for name in ("", "a" * 17, "A", "a b", "a_b", "\u00e9", "a.b", "\0"):
        checks.refuses_site(f"the name {name!r}", site(name=json.dumps(name)), 27)


def rows_that_are_refused(checks):
    for row in ("5", "{}", "null", "[]", '["m","en",5,"a",0]', cell()[:-1] + ",0]"):
        checks.refuses_row(f"the row {row}", row, 20)
    checks.refuses_row("a number for an id", cell(id=5), 20)
    checks.refuses_row("null for a language", cell(lang=None), 20)
    for time in ('"5"', "-1", "-0", "5.0", "5e0", "18446744073709551616", "true"):
        checks.refuses_row(f"the time {time}", cell(time=time), 20)
    for count in ("4294967296", "-1"):
        checks.refuses_row(f"the count {count}", cell(count=count), 20)
    checks.refuses_row("a number for a site", cell(at="1"), 20)
    for label in ('"x"', "{}", "5", '["x",null]', "[5]", '[["x"]]'):
        checks.refuses_row(f"the label {label}", cell(label=label), 20)
    for id in ("", "@m", "n" * 129, "a\tb", "\0", "\x7f"):
        checks.refuses_row(f"the id {id[:5]!r}", cell(id=id), 10)
    checks.refuses_row("an empty language", cell(lang=""), 1)
    checks.refuses_row("a language of 256 bytes", cell(lang="a-" * 128), 2)
    for lang, offset in (("@NONE", 0), ("en--us", 3), ("en_us", 0), ("en-abcdefghi", 3)):
        checks.refuses_row(f"the language {lang}", cell(lang=lang), 3, f"subtag at {offset}")
    for lang in ("a", "en-a", "x"):
        checks.refuses_row(f"the language {lang}", cell(lang=lang), 4)
    for name in ("", "A", "a" * 17):
        checks.refuses_row(f"the stamp's site {name!r}", cell(at=json.dumps(name)), 27)
    checks.refuses_row("no text", cell(label="[]"), 12, "label has 0 texts")
    checks.refuses_row("65 texts", cell(label=texts(*["x"] * 65)), 12, "label has 65 texts")
    row = cell(label=texts("x", "x" * 65_536))
    checks.refuses_row("a text of 65,536 bytes", row, 11, "text 1 is over 65535 bytes")
    checks.refuses_row("a shape before an id", cell(id="", label="5"), 20)
    checks.refuses_row("an id before a language", cell(id="", lang=""), 10)
    checks.refuses_row("a language before a site", cell(lang="", at='""'), 1)
    checks.refuses_row("a site before a label", cell(at='""', label="[]"), 27)
    for case, first, second in (
        ("one key twice", cell(), cell(time="6")),
        ("one key in two cases", cell(), cell(lang="EN", time="6")),
        ("a lesser id", cell(id="n"), cell()),
        ("a lesser language", cell(lang="fr"), cell()),
    ):
        checks.refuses_site(case, site(f"{first},{second}"), 21, row=1)


def two_documents(checks):
    checks.refuses("one document", ["sync"], site(), 19, document=2)
    checks.refuses("no second JSON", ["sync"], f"{site()}\n{{\n", 19, document=2)
    checks.refuses("no first JSON", ["sync"], f"{{\n{site()}\n", 19, document=1)
    second = site(name='""')
    checks.refuses("no second name", ["sync"], f"{site()}\n{second}\n", 27, document=2)
    other = site(cell(label=texts("y")), name='"b"')
    reused = "stamp 5 a 0 used twice, cell 0"
    checks.refuses("a stamp twice", ["sync"], f"{site(cell())}\n{other}\n", 13, reused, document=0)
    delta = '{"cells":[],"kind":"delta","to":"b","version":2}'
    checks.refuses("a delta for another", ["take"], f"{site()}\n{delta}\n", 15, document=0)
    limited, late = ["sync", "--not-after", "4"], f"{other}\n{site()}\n"
    checks.refuses("a late first site", limited, late, 29, row=0, document=1)
    late = f"{site(cell())}\n{other}\n"
    checks.refuses("late before a stamp twice", limited, late, 29, row=0, document=1)
    many = f"{site()}\n{site()}\n"
    checks.refuses("no third site", ["merge"], f"{many}\n", 19, document=3)
    checks.refuses("a late third site", ["merge", *limited[1:]], f"{many}{other}\n", 29, row=0,
                   document=3)
    checks.refuses("a stamp twice in the third", ["merge"], f"{site(cell())}\n{many}{other}\n", 13,
                   reused, document=0)
    given = f"{site()}\n{delta}\n"
    checks.refuses("a changed site that is none", ["changes"], given, 20, document=2)


def language_maps(checks):
    for maps in ("[]", '"a"', "5"):
        checks.refuses_maps(maps, maps, 20)
    for value in ('"x"', "null", '{"en":5}', '{"en":{}}', '{"en":[["x"]]}', '{"en":["x",5]}'):
        checks.refuses_maps(value, f'{{"m":{value}}}', 20, row=0)
    checks.refuses_maps("an empty id", '{"":{"en":"x"}}', 10, row=0)
    checks.refuses_maps("a bad id without labels", '{"\\u0001":{}}', 10, row=0)
    checks.refuses_maps("an empty language", '{"m":{"":"x"}}', 1, row=0)
    checks.refuses_maps("@type", '{"m":{"@type":"x"}}', 3, "subtag at 0", row=0)
    maps = '{"m":{"EN":"x","de":"y","en":null}}'
    checks.refuses_maps("one language in two cases", maps, 22, row=0)
    maps = json.dumps({"m": {"en": ["x"] * 65}})
    checks.refuses_maps("65 texts", maps, 12, "label has 65 texts", row=0)
    maps = json.dumps({"m": {"en": "x" * 65_536}})
    checks.refuses_maps("a long text", maps, 11, "text 0 is over 65535 bytes", row=0)
    checks.refuses_maps("rows in order of their names", '{"n":5,"a":{"en":"x"},"@c":5}', 20, row=2)
    checks.imports("no label", '{"m":{"en":null,"de":[],"fr":[null]}}', site())
    checks.imports("a member that is passed over", '{"@context":{"deep":[[[{}]]]}}', site())
    label = '["m","en",9,"a",0,["x"]]'
    checks.imports("nulls beside a text", '{"m":{"en":[null,"x",null]}}', site(label))
    checks.imports("1e300, passed over", '{"@c":1e300}', site())
    checks.imports("127 levels", f'{{"@c":{"[" * 126}{"]" * 126}}}', site())
    for case, value in (
        ("128 levels", "[" * 127 + "]" * 127),
        ("128 levels of objects", '{"a":' * 127 + "1" + "}" * 127),
        ("400 digits, passed over", "9" * 400),
        ("1e400, passed over", "1e400"),
    ):
        checks.refuses_maps(case, f'{{"@c":{value}}}', 19)


run(documents_of_another_shape, rows_that_are_refused, two_documents, language_maps)
