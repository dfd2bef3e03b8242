#!/usr/bin/env python3
"""Prints hostile inputs with what the command makes of them, as JSON, for hostile.mjs.

usage: hostile.py LEXICAT
"""
import base64
import json
import os
import sys

sys.dont_write_bytecode = True
sys.path.insert(0, os.path.join(os.path.dirname(os.path.realpath(__file__)), ".."))
from edits import Command, line, status  # noqa: E402
from questions import choices, label  # noqa: E402

IDS = ["__proto__", "constructor", "toString", "hasOwnProperty", "valueOf", "then", "0", "length", "<script>",
       "'\"\\", "\u202eabc", "\ufeffm", "\u2028", "😀" * 32, "😀" * 33, "x" * 128, "x" * 129, "", "@id", "a\u0000",
       "a\u009f", "a\nb"]
LANGS = ["en", "EN-us", "@none", "__proto__", "", "a" * 256, "en-", "e\u0301", "en\n", "i-klingon",
         "x-" + "a-" * 40 + "b"]
TEXTS = ["__proto__", "\ufeff", "\u0000", "\u2028\u2029", "18446744073709551616", '"],["m","en",', "\r\n", "😀",
         "\U00020000\U0010ffff", "é" * 32767, "é" * 32768, "x" * 65536]
MOMENTS = [0, 1, 2**31, 2**32, 2**53 - 1, 2**53, 2**53 + 1, 2**63, 2**64 - 1]
FIELDS = ["", ",", ";q=1", "*", "*;q=0", "en;q=1.0000", "en;q=99999999999999999999", "en;q=0.999", "en;Q=1", "en ; q=1",
          "__proto__", "constructor;q=0.5", "\u0000", "en\n", "é", ", " * 20000 + "en", "en" + " " * 65533,
          "en" + " " * 65534, ",".join(f"x-{it}" for it in range(3000)), "a" * 8 + "-" * 2, "en;q=0,EN;q=1"]
TAG_LISTS = [["en"], ["EN", "en", "En"], ["__proto__"], ["constructor", "en"], [""], ["en", ""], ["@none"],
             ["en-x-" + "-".join("abcdefgh")], ["x-" + "a" * 9], [f"en-x-{it}" for it in range(500)]]
MAPS = ['{"__proto__":{"en":"a"}}', '{"a":{"__proto__":"b"}}', '{"a":{"en":"\\ud800"}}', '{"a":{"en":1e999}}',
        '{"a":{"en":["x","y"]},"a":{"en":"z"}}', '{"a":{"en":"x","EN":"y"}}', "[" * 127, "[" * 200, "{}",
        "\ufeff{}", "null", '{"constructor":{"en":["1","2"],"fr":"3"}}',
        '{"toString":{"en":[]}}', '{"a":null}', '{"a":{"en":null}}']
CELL = '["m","en",{},"paris",{},["a"]]'
SITE = '{{"cells":[{}],"kind":"site","site":"{}","version":{}}}'


def documents():
    """Documents that hold what readers of JSON differ in, or what passes a number."""
    numbers = ["0", "-0", "1.0", "1e3", "01", "9007199254740993", "18446744073709551615", "18446744073709551616",
               "9" * 40, "1e999", "-1", "null", '"1"', "NaN", "Infinity"]
    for number in numbers:
        yield SITE.format(CELL.format(number, "0"), "paris", 2).encode()
        yield SITE.format(CELL.format("1", number), "paris", 2).encode()
        yield SITE.format("", "paris", number).encode()
    for name in ["__proto__", "", "Paris", "x" * 17, "paris\\u0000"]:
        yield SITE.format("", name, 2).encode()
    plain = SITE.format(CELL.format(1, 0), "paris", 2)
    yield from (it.encode() for it in [plain + plain, plain + " \n", "\ufeff" + plain, plain[:-1], plain + "\u0000",
                                       plain.replace('"kind"', '"__proto__":{},"kind"'), "[" * 100000, '{"a":' * 100000,
                                       plain.replace('"m"', '"__proto__"'), plain.replace('["a"]', '["\\ud800"]'),
                                       plain.replace('["a"]', "[]"), plain.replace('["a"]', '["' + "x" * 65536 + '"]'),
                                       plain.replace('["a"]', json.dumps(["a"] * 65)),
                                       plain.replace('"site"', '"sit\\u0065"')])
    for half in [b"\xed\xa0\x80", b"\xff", b"\xc0\x80", b"\xf4\x90\x80\x80", b"\xe3\x81"]:
        yield plain.encode().replace(b'"m"', b'"m' + half + b'"')


def in_words(given):
    """Bytes for JSON, which hostile.mjs makes a Uint8Array of."""
    return {"bytes": base64.b64encode(given).decode()}


class Hostile:
    def __init__(self, command):
        self.command = command
        self.steps = []
        self.site = command.run(["new", "--site", "paris"])

    def done(self, call, words, made):
        """An edit: what it makes is a new document of the site, or a refusal, which leaves it."""
        refused = made if isinstance(made, dict) else None
        if refused is None:
            self.site = made
        self.steps.append({"call": call, "words": words, "wanted": refused, "document": self.site.decode()})

    def asked(self, call, words, made, read):
        wanted = made if isinstance(made, dict) and "number" in made else read(made)
        self.steps.append({"call": call, "words": words, "wanted": wanted})

    def edit(self):
        now = iter(MOMENTS * 9)
        for name, lang, text in [*[(it, "en", "a") for it in IDS], *[("a", it, "a") for it in LANGS],
                                 *[("a", "fr", it) for it in TEXTS]]:
            at = next(now)
            words = ["--now", str(at), f"--id={name}", f"--lang={lang}"]
            if "\0" in name:
                # (no argument of a command can have a zero: FORMATS.md refuses such an id)
                refused = {"number": 10, "offset": None, "row": None, "count": None, "ofSecond": False}
                self.done("put", [name, lang, text, {"now": str(at)}], refused)
            elif "\0" in text:
                maps = json.dumps({name: {lang: text}}).encode()
                made = self.command.run(["import", "--now", str(at)], self.site, maps)
                self.done("put", [name, lang, text, {"now": str(at)}], made)
            else:
                made = self.command.run(["put", *words, "--", text], self.site)
                self.done("put", [name, lang, text, {"now": str(at)}], made)
        for maps in MAPS:
            made = self.command.run(["import", "--now", "7"], self.site, maps.encode())
            self.done("importMaps", [maps, {"now": "7"}], made)
            made = self.command.run(["update", "--now", "8"], self.site, line("{}"), maps.encode())
            self.done("update", ["{}", maps, {"now": "8"}], made)

    def ask(self):
        run = self.command.run
        for name in IDS:
            if "\0" in name:
                continue
            self.asked("lookup", [name, "en"], run(["lookup", f"--id={name}", "en"], self.site), found)
            self.asked("filter", [name, "*"], run(["filter", f"--id={name}", "--", "*"], self.site), choices)
        for field in FIELDS:
            if "\0" in field:
                continue
            self.asked("bundle", [field], run(["bundle", "--", field], self.site), json.loads)
            for tags in TAG_LISTS:
                self.asked("pick", [field, tags], run(["pick", "--", field, *tags]), picked)
        self.asked("export", [], run(["export"], self.site), json.loads)
        self.asked("status", [], run(["status"], self.site), status)
        self.asked("summary", [], run(["summary"], self.site), bytes.decode)
        for lang in LANGS[:-3]:
            self.asked("missing", [lang], run(["missing", f"--lang={lang}"], self.site), json.loads)
        for maps in MAPS:
            self.asked("deltaFor", [maps], run(["delta"], self.site, maps.encode()), bytes.decode)

    def take(self):
        """Documents in place of the site: read, or refused, and then the site is as it was."""
        for document in documents():
            made = self.command.run(["status"], document)
            wanted = made if isinstance(made, dict) else None
            if wanted is None:
                self.site = document
            self.steps.append({"call": "reload", "words": [in_words(document)], "wanted": wanted})
            self.asked("status", [], self.command.run(["status"], self.site), status)
            self.asked("export", [], self.command.run(["export"], self.site), json.loads)


def found(text):
    return None if text == b"nothing\n" else label(text)


def picked(text):
    return None if text == b"nothing\n" else text.decode().split()[1]


def main(words):
    it = Hostile(Command(words[0]))
    it.edit()
    it.ask()
    it.take()
    json.dump(it.steps, sys.stdout)


if __name__ == "__main__":
    main(sys.argv[1:])
