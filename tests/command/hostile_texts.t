#!/usr/bin/env python3
"""Hands documents to the command that are unusual, and texts that are no document: with bytes that
are no UTF-8, broken as JSON, or too deep. Each is answered, or refused by its line.

Takes build/lexicat, or the command that LEXICAT names.
"""
import json
import os
import sys

sys.dont_write_bytecode = True
sys.path.insert(0, os.path.dirname(os.path.realpath(__file__)))
from hostile import EMPTY_LINE, ONE_LINE, cell, run, site, texts  # noqa: E402


def what_is_read(checks):
    one = site(cell())
    checks.reads("an empty site", site(), EMPTY_LINE)
    checks.reads("one cell", one)
    checks.reads("lines that end with CRLF", one.replace(",", ",\r\n") + "\r\n")
    checks.reads("blanks", " \t\n" + one.replace(":", " : ") + " \n")
    members = f'"version":2,"site":"a","kind":"site","cells":[{cell()}]'
    checks.reads("members in another order", f"{{{members}}}")
    checks.reads("an escaped name", one.replace('"kind"', '"k\\u0069nd"'))
    checks.reads("an escaped kind", one.replace(':"site"', ':"\\u0073ite"'))
    checks.reads("the last of two members", one.replace('"version"', '"version":3,"version"'))
    checks.reads("a language in upper case", site(cell(lang="EN")))
    checks.reads("a NUL in a text", site(cell(label=texts("a\0b"))))
    checks.reads("a surrogate pair", site(cell(label='["\\ud83d\\ude00"]')))
    checks.reads("an id of 128 bytes", site(cell(id="m" * 128)))
    checks.reads("a text of 65,535 bytes", site(cell(label=texts("x" * 65_535))))
    checks.reads("64 texts", site(cell(label=texts(*["x"] * 64))))
    both = site(f"{cell(lang='@none')},{cell()}")
    checks.reads("@none before en", both, ONE_LINE.replace("1", "2"))
    checks.reads("a deletion", site(cell(label="null")), ONE_LINE.replace("labels 1", "labels 0"))
    most = str(2**64 - 1)
    checks.reads("the greatest time", site(cell(time=most)), ONE_LINE.replace("5", most))
    most = str(2**32 - 1)
    checks.reads("the greatest count", site(cell(count=most)), ONE_LINE.replace("a 0", f"a {most}"))
    name = "abcdefghij-12345"
    line = EMPTY_LINE.replace("site a", f"site {name}")
    checks.reads("a name of 16 bytes", site(name=json.dumps(name)), line)
    line = "site 0000000007 cells 1 labels 1 last 5 0000000001 0\n"
    checks.reads("version 1", site(cell(at="1"), name="7", version="1"), line)


def bytes_that_are_no_text(checks):
    for case, front in (("UTF-16", b"\xff\xfe"), ("Latin-1", b"\xe9")):
        checks.refuses_site(case, front + site().encode(), 18, text="not UTF-8 at 0")
    given = site(cell(label='["#"]')).encode()
    at = given.index(b"#")
    for case, bad in (
        ("an overlong form of two bytes", b"\xc0\xaf"),
        ("an overlong form of three bytes", b"\xe0\x80\xaf"),
        ("a surrogate in bytes", b"\xed\xa0\x80"),
        ("above the last character", b"\xf4\x90\x80\x80"),
        ("a form of five bytes", b"\xf8\x88\x80\x80\x80"),
        ("a byte that goes on with nothing", b"\x80"),
        ("a character that is cut off", b"\xe2\x82"),
    ):
        checks.refuses_site(case, given.replace(b"#", bad), 18, text=f"not UTF-8 at {at}")


def texts_that_are_no_json(checks):
    for case, given in (
        ("nothing", ""),
        ("blanks alone", "  \n"),
        ("a byte order mark", "\ufeff" + site()),
        ("a comma after the last row", site(f"{cell()},")),
        ("a comma after the last member", site()[:-1] + ",}"),
        ("two values", site() + "{}"),
        ("a comment", site() + "//"),
        ("single quotes", site().replace('"', "'")),
        ("no closing brace", site()[:-1]),
        ("a bracket for a brace", site()[:-1] + "]"),
        ("no colon", site().replace(":", " ", 1)),
        ("a capital letter in null", site(cell(label="Null"))),
        ("a NUL after it", site() + "\0"),
        ("a byte 127 after it", site() + "\x7f"),
    ):
        checks.refuses_site(case, given, 19)
    for text in ("\\ud800", "\\udc00", "\\ud800\\ud800", "\t", "\n", "\0", "\\x", "\\u12", "\\"):
        checks.refuses_site(f"the string {text!r}", site(cell(label=f'["{text}"]')), 19)
    for number in ("05", "+5", "NaN", "Infinity", "5.", ".5", "0x5", "1e400", "9" * 400, "-", "5e"):
        checks.refuses_site(f"the number {number[:10]}", site(cell(time=number)), 19)
    checks.refuses_site("127 levels", "[" * 127 + "]" * 127, 20)
    for levels in (128, 10_000, 1_000_000):
        checks.refuses_site(f"{levels} levels", "[" * levels + "]" * levels, 19)


run(what_is_read, bytes_that_are_no_text, texts_that_are_no_json)
