"""What the tests have in common: documents, cases, a folder with a file, threads, programs."""
import json
import os
import subprocess
import sys
import tempfile
import threading
import unittest

from silkwaram import Refused


def site_of(*cells, name="paris", **members):
    """What a site document of these cells (id, language, label) has, by docs/FORMATS.md."""
    rows = [[id, lang, 5, "paris", at, label] for at, (id, lang, label) in enumerate(cells)]
    return {"cells": rows, "kind": "site", "site": name, "version": 2, **members}


def document(*cells, **members):
    """A document of these cells as another program writes it."""
    return json.dumps(site_of(*cells, **members)).encode()


def written(*cells):
    """The same as Silkwaram writes it."""
    return json.dumps(site_of(*cells), ensure_ascii=False, separators=(",", ":")).encode() + b"\n"


def rewritten(*cells):
    """The same as PHP's `json_encode`, Python's `json.dumps` and Go's `encoding/json` write it
    without blanks: each has escapes of its own."""
    ascii = json.dumps(site_of(*cells), separators=(",", ":"))
    yield "PHP", ascii.replace("/", "\\/").encode()
    yield "Python", ascii.encode()
    by_go = json.dumps(site_of(*cells), ensure_ascii=False, separators=(",", ":"))
    for letter in "<>&\u2028\u2029":
        by_go = by_go.replace(letter, f"\\u{ord(letter):04x}")
    yield "Go", by_go.encode()


# (a text that could be taken for the border of two rows, and an id)
ROW = '],["größe","ja",5,"paris",4,["サイズ"]]'
CELLS = (
    ("bye", "en", None),
    ("greeting", "@none", ["*"]),
    ("greeting", "de", ["Hallo", "Guten Tag"]),
    ("greeting", "en", ["Hello"]),
    ("größe", "ja", [ROW]),
    ('quote "],["', "en-us", ["a\nb"]),
)
PARIS, WRITTEN = document(*CELLS), written(*CELLS)


def greeting(text, last=None):
    """A document whose first and last message say the same."""
    return written(("greeting", "en", [text]), ("last", "en", [text if last is None else last]))


def side_by_side(*works):
    """Does each work in a thread of its own, and waits for all of them. A fault of one is raised."""
    faults = []

    def does(work):
        try:
            work()
        except BaseException as fault:
            faults.append(fault)

    threads = [threading.Thread(target=does, args=[it], daemon=True) for it in works]
    for it in threads:
        it.start()
    for it in threads:
        it.join(600)
    if any(it.is_alive() for it in threads):
        faults.append(AssertionError("a thread does not end"))
    if faults:
        raise faults[0]


def run_python(program, *words, **environ):
    """Runs a program in a process of its own."""
    words = [sys.executable, "-X", "dev", "-c", program, *words]
    given = {**os.environ, **environ}
    return subprocess.run(words, env=given, capture_output=True, text=True, timeout=600)


class Case(unittest.TestCase):
    def refuses(self, number, ask, *words, **named):
        """Asks what is refused by this number, and returns the refusal."""
        with self.assertRaises(Refused) as it:
            ask(*words, **named)
        self.assertEqual(it.exception.number, number)
        return it.exception

    def wrong_types(self, cases):
        """Asks each, which is a TypeError with this message."""
        for ask, message in cases:
            with self.subTest(message=message), self.assertRaises(TypeError) as it:
                ask()
            self.assertEqual(str(it.exception), message)

    def is_closed(self, *asks):
        """Asks each, of a site that is closed."""
        for ask in asks:
            with self.assertRaisesRegex(ValueError, "^the site is closed$") as it:
                ask()
            self.assertNotIsInstance(it.exception, Refused)


class FileCase(Case):
    """A folder with the file of a site."""

    name, first = "site.json", WRITTEN

    def setUp(self):
        folder = tempfile.TemporaryDirectory()
        self.addCleanup(folder.cleanup)
        self.folder, self.path = folder.name, os.path.join(folder.name, self.name)
        self.write(self.first)

    def write(self, content):
        with open(self.path, "wb") as file:
            file.write(content)

    def replace(self, content):
        with open(self.path + ".next", "wb") as file:
            file.write(content)
        os.replace(self.path + ".next", self.path)

    def replace_by_link(self, target):
        os.symlink(target, self.path + ".next")
        os.replace(self.path + ".next", self.path)
