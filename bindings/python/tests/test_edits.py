"""Edits and exchanges, over the library that SILKWARAM_LIBRARY names, or that the loader finds.

    SILKWARAM_LIBRARY=build/lib/libsilkwaram.so PYTHONPATH=bindings/python/src \
        python3 -m unittest discover -s bindings/python/tests
"""
import errno
import fcntl
import json
import multiprocessing
import os
import stat
import threading
import time
import unittest
from unittest import mock

import silkwaram
from cases import Case, FileCase, document, side_by_side
from silkwaram import Cell, Change, Refused, Site, Stamp, Status, TagChoice, edit, filter_tags, pick

# What the examples of docs/COMMAND.md begin with.
PARIS = document(("m", "en", ["Hello"]), ("m", "fr", ["Salut"]), ("n", "de", None)).decode()


def cells(site):
    """The rows of the site's document."""
    return json.loads(site.to_bytes())["cells"]


class Tags(Case):
    def test_all_tags_that_fit_best_first(self):
        tags = ["en", "da-DK", "en-GB-oed", "@none", "EN"]
        best = [("da-DK", 1000), ("en-GB-oed", 800), ("en", 700), ("EN", 700)]
        for field, given, words, wanted in [
            ("da, en-gb;q=0.8, en;q=0.7", tags, {}, best),
            ("ja", ["en"], {}, []),
            ("ja", [], {}, []),
            ("de-*-DE", ["de-Latn-DE", "de"], {"extended": True}, [("de-Latn-DE", 1000)]),
        ]:
            with self.subTest(field=field):
                chosen = [TagChoice(*it) for it in wanted]
                self.assertEqual(filter_tags(field, given, **words), chosen)

    def test_a_language_finds_its_regions(self):
        self.assertEqual(pick("en", ["en-US", "fr"], widen=True), "en-US")
        self.assertIsNone(pick("en", ["en-US", "fr"]))


class Edits(Case):
    def setUp(self):
        self.site = Site.open(PARIS)
        self.addCleanup(self.site.close)

    def test_a_new_site(self):
        with Site.new("tokyo") as site:
            self.assertEqual(
                site.to_bytes(), b'{"cells":[],"kind":"site","site":"tokyo","version":2}\n'
            )
            self.assertEqual(site.status(), Status("tokyo", 0, 0, None))
            self.assertEqual(site.labels(), {})
        self.assertEqual(self.refuses(27, Site.new, "Tokyo").code, "site-name-invalid")

    def test_a_put(self):
        self.site.put("m", "FR", "Bonjour", now=6)
        self.assertEqual(cells(self.site)[1], ["m", "fr", 6, "paris", 0, ["Bonjour"]])
        self.assertEqual(self.site.text("m", "fr"), "Bonjour")

    def test_a_put_at_an_earlier_time_is_the_latest_all_the_same(self):
        self.site.put("m", "fr", "Bonjour", now=1)
        self.assertEqual(cells(self.site)[1], ["m", "fr", 5, "paris", 3, ["Bonjour"]])

    def test_a_delete(self):
        self.site.delete("m", "en", now=6)
        self.assertEqual(cells(self.site)[0], ["m", "en", 6, "paris", 0, None])
        self.assertIsNone(self.site.text("m", "en"))

    def test_the_time_of_the_clock(self):
        before = time.time_ns() // 1_000_000
        self.site.put("m", "fr", "Bonjour")
        after = time.time_ns() // 1_000_000
        self.assertTrue(before <= self.site.status().last.time <= after)

    def test_labels_of_several_texts(self):
        self.site.import_maps({"m": {"en": ["a", "b"]}, "größe": {"ja": "サイズ"}}, now=7)
        self.assertEqual(
            cells(self.site),
            [
                ["größe", "ja", 7, "paris", 0, ["サイズ"]],
                ["m", "en", 7, "paris", 1, ["a", "b"]],
                ["m", "fr", 5, "paris", 1, ["Salut"]],
                ["n", "de", 5, "paris", 2, None],
            ],
        )

    def test_an_update(self):
        old, new = {"m": {"en": "Helo"}}, '{"m":{"en":"Helo","ja":"x"}}'
        self.site.update(old, new, now=6)
        self.assertIn(["m", "ja", 6, "paris", 0, ["x"]], cells(self.site))
        self.assertIn(["m", "en", 5, "paris", 0, ["Hello"]], cells(self.site))
        self.assertEqual(len(cells(self.site)), 4)

    def test_no_stamp_is_left(self):
        self.site.put("m", "en", "last", now=2**64 - 1)
        document = json.loads(self.site.to_bytes())
        document["cells"][0][4] = 2**32 - 1
        with Site.open(json.dumps(document)) as site:
            before = site.to_bytes()
            for call in (
                lambda: site.put("m", "en", "x", now=1),
                lambda: site.delete("m", "en", now=1),
                lambda: site.import_maps({"m": {"en": "x"}}, now=1),
                lambda: site.update({}, {"m": {"en": "x"}}, now=1),
            ):
                self.refuses(14, call)
                self.assertEqual(site.to_bytes(), before)

    def test_a_share_keeps_what_it_held(self):
        with self.site.share() as share:
            self.site.put("m", "en", "Good day", now=6)
            self.assertEqual(share.text("m", "en"), "Hello")
            self.assertEqual(self.site.text("m", "en"), "Good day")

    def test_wrong_types(self):
        site, wanted = self.site, "must be str or bytes-like, not"
        key = "an id or a language must be str, not"
        cases = [
            (lambda: site.put(None, "en", "x"), f"id {wanted} NoneType"),
            (lambda: site.put("m", 5, "x"), f"lang {wanted} int"),
            (lambda: site.put("m", "en", ["x"]), f"text {wanted} list"),
            (lambda: site.put("m", "en", "x", now="5"), "now must be int, not str"),
            (lambda: site.put("m", "en", "x", now=5.0), "now must be int, not float"),
            (lambda: site.delete("m", None), f"lang {wanted} NoneType"),
            (lambda: site.import_maps(["m"]), f"maps {wanted} list"),
            (lambda: site.update({}, 5), f"new {wanted} int"),
            (lambda: site.import_maps({"m": {None: "x"}}), f"{key} NoneType"),
            (lambda: site.update({}, {7: {"en": "x"}}), f"{key} int"),
            (lambda: site.take(5), f"delta {wanted} int"),
            (lambda: site.merge(5), "other must be Site, not int"),
            (lambda: site.take("", not_after="1"), "not_after must be int, not str"),
            (lambda: site.delta_for(None), f"summary {wanted} NoneType"),
            (lambda: site.missing(None), f"lang {wanted} NoneType"),
            (lambda: site.outdated("en", 5), f"source {wanted} int"),
            (lambda: Site.new(5), f"name {wanted} int"),
        ]
        self.wrong_types(cases)
        for ask in (
            lambda: site.put("m", "en", "x", now=-1),
            lambda: site.put("m", "en", "x", now=2**64),
            lambda: site.take("", not_after=0),
        ):
            with self.assertRaises(ValueError) as it:
                ask()
            self.assertNotIsInstance(it.exception, Refused)

    def test_a_site_that_is_closed(self):
        site = Site.open(PARIS)
        site.close()
        self.is_closed(
            lambda: site.put("m", "en", "x"),
            lambda: site.delete("m", "en"),
            lambda: site.import_maps({}),
            lambda: site.update({}, {}),
            lambda: site.take("{}"),
            lambda: site.merge(self.site),
            lambda: self.site.merge(site),
            lambda: site.changes(self.site),
            lambda: self.site.changes(site),
            site.to_bytes,
            site.export,
            site.summary,
            site.status,
            lambda: site.missing("en"),
            lambda: site.outdated("en", "fr"),
            lambda: site.delta_for("{}"),
        )


class Reports(Case):
    def test_an_export_the_status_and_what_is_missing(self):
        with Site.open(PARIS) as site:
            self.assertEqual(site.export(), {"m": {"en": "Hello", "fr": "Salut"}})
            self.assertEqual(site.status(), Status("paris", 3, 2, Stamp(5, "paris", 2)))
            self.assertEqual(list(site.labels().items()), [("en", 1), ("fr", 1)])
            self.assertEqual(site.missing("de"), {"m": {"en": "Hello", "fr": "Salut"}})
            self.assertEqual(site.missing("EN"), {})
            self.refuses(4, site.missing, "e")

    def test_what_is_outdated(self):
        with Site.new("paris") as site:
            for put in "m de 5", "n en 5", "m en 7", "m fr 7", "n de 9", "o en 9":
                name, language, now = put.split()
                site.put(name, language, f"{name}-{language}", now=int(now))
            for lang, source, wanted in [
                ("de", "en", {"m": {"de": "m-de", "en": "m-en", "fr": "m-fr"}}),
                ("EN", "de", {"n": {"de": "n-de", "en": "n-en"}}),
                ("fr", "en", {}),
                ("en", "en", {}),
            ]:
                self.assertEqual(site.outdated(lang, source), wanted)
            self.refuses(3, site.outdated, "e n", "e")

    def test_what_changed(self):
        after = json.loads(PARIS)
        after["cells"] = [
            ["m", "en", 5, "paris", 0, ["Hello"]],
            ["m", "fr", 9, "tokyo", 0, None],
            ["n", "de", 7, "tokyo", 0, ["a", "b"]],
        ]
        before = json.loads(PARIS)
        del before["cells"][2]
        was, gone = Cell(Stamp(5, "paris", 1), ["Salut"]), Cell(Stamp(9, "tokyo", 0), None)
        new = Cell(Stamp(7, "tokyo", 0), ["a", "b"])
        with Site.open(json.dumps(before)) as one, Site.open(json.dumps(after)) as other:
            wanted = [Change("m", "fr", was, gone), Change("n", "de", None, new)]
            self.assertEqual(one.changes(other), wanted)
            self.assertEqual(one.changes(one), [])


class Exchanges(Case):
    def setUp(self):
        self.paris, self.tokyo = Site.open(PARIS), Site.new("tokyo")
        self.addCleanup(self.paris.close)
        self.addCleanup(self.tokyo.close)

    def test_sites_that_were_edited_apart(self):
        self.tokyo.put("m", "ja", "こんにちは", now=7)
        for one, other in [(self.paris, self.tokyo), (self.tokyo, self.paris)]:
            delta = one.delta_for(other.summary())
            other.take(delta)
            other.take(delta)
        self.assertEqual(cells(self.paris), cells(self.tokyo))
        self.assertEqual(self.paris.changes(self.tokyo), [])
        self.assertEqual(len(cells(self.paris)), 4)

    def test_a_merge(self):
        self.tokyo.put("m", "en", "Good day", now=7)
        self.tokyo.merge(self.paris)
        self.assertEqual(self.tokyo.export(), {"m": {"en": "Good day", "fr": "Salut"}})
        self.assertEqual(self.paris.export(), {"m": {"en": "Hello", "fr": "Salut"}})
        before = self.tokyo.to_bytes()
        self.tokyo.merge(self.tokyo)
        self.tokyo.merge(self.paris)
        self.assertEqual(self.tokyo.to_bytes(), before)

    def test_merges_that_cross(self):
        def merges(one, other):
            return lambda: [one.merge(other) for _ in range(200)]

        side_by_side(merges(self.paris, self.tokyo), merges(self.tokyo, self.paris))
        self.assertEqual(cells(self.paris), cells(self.tokyo))

    def test_deltas_that_are_refused(self):
        self.tokyo.put("m", "ja", "x", now=101)
        delta = self.tokyo.delta_for(self.paris.summary())
        before = self.paris.to_bytes()
        self.assertEqual(self.refuses(29, self.paris.take, delta, not_after=100).row, 0)
        self.refuses(29, self.tokyo.take, delta, not_after=100)
        self.refuses(15, self.tokyo.take, delta)
        self.assertEqual(self.paris.to_bytes(), before)
        self.refuses(29, self.paris.merge, self.tokyo, not_after=100)
        self.assertEqual(self.paris.to_bytes(), before)
        self.paris.take(delta, not_after=101)
        self.assertEqual(self.paris.text("m", "ja"), "x")

    def test_a_site_that_was_put_back(self):
        before = self.paris.to_bytes()
        self.paris.put("m", "ja", "x", now=101)
        self.tokyo.merge(self.paris, check_own=True)
        self.paris.reload(before)
        delta = self.tokyo.delta_for(self.paris.summary())
        self.refuses(30, self.paris.take, delta, check_own=True)
        self.refuses(30, self.paris.merge, self.tokyo, check_own=True)
        self.assertEqual(self.paris.to_bytes(), before)
        self.paris.take(delta)
        self.assertEqual(self.paris.text("m", "ja"), "x")

    def test_one_stamp_of_two_labels(self):
        with Site.new("paris") as twin:
            self.paris.put("n", "en", "a", now=101)
            twin.put("n", "en", "b", now=101)
            twin.take(self.paris.delta_for(twin.summary()))
            delta = self.paris.delta_for(twin.summary(labels=True))
            self.refuses(13, twin.take, delta)
            self.refuses(13, twin.merge, self.paris)
            self.assertEqual(twin.text("n", "en"), "b")


class Files(FileCase):
    name, first = "paris.json", PARIS.encode()

    def in_folder(self, *names):
        return os.path.join(self.folder, *names)

    def labels(self):
        with open(self.path, "rb") as it, Site.open(it.read()) as site:
            return site.export()

    def names(self):
        return sorted(os.listdir(self.folder))

    def is_as_it_was(self):
        with open(self.path, encoding="utf-8") as it:
            self.assertEqual(it.read(), PARIS)
        self.assertEqual(self.names(), ["paris.json", "paris.json.lock"])

    def test_an_edit_of_the_file(self):
        os.chmod(self.path, 0o640)
        with edit(self.path) as site:
            site.put("m", "fr", "Bonjour")
        self.assertEqual(self.labels(), {"m": {"en": "Hello", "fr": "Bonjour"}})
        self.assertEqual(stat.S_IMODE(os.stat(self.path).st_mode), 0o640)
        self.assertEqual(self.names(), ["paris.json", "paris.json.lock"])

    def test_a_block_that_fails(self):
        with self.assertRaisesRegex(RuntimeError, "^of the caller$"), edit(self.path) as site:
            site.put("m", "fr", "Bonjour")
            raise RuntimeError("of the caller")
        self.is_as_it_was()

    def test_a_file_that_cannot_be_written(self):
        full = OSError(28, "No space left on device")
        with mock.patch.object(silkwaram._edit.os, "fsync", side_effect=full):
            with self.assertRaises(OSError), edit(self.path) as site:
                site.put("m", "fr", "Bonjour")
        self.is_as_it_was()

    def test_a_log_that_cannot_be_written(self):
        os.mkdir(self.path + ".changes")
        with self.assertLogs("silkwaram", "WARNING") as logged, edit(self.path, log="me") as site:
            site.put("m", "fr", "Bonjour")
        self.assertIn("the edit was made, but is not in the log", logged.output[0])
        self.assertEqual(self.labels()["m"]["fr"], "Bonjour")

    def test_a_site_that_stays_the_same_is_not_written(self):
        with edit(self.path) as site:
            site.put("m", "fr", "Bonjour", now=6)
        before = os.stat(self.path).st_ino
        with edit(self.path):
            pass
        self.assertEqual(os.stat(self.path).st_ino, before)

    def test_a_file_that_is_not_there(self):
        path = self.in_folder("tokyo.json")
        with self.assertRaises(FileNotFoundError), edit(path):
            pass
        with edit(path, create="tokyo") as site:
            site.put("m", "ja", "x")
        with edit(path, create="osaka") as site:
            self.assertEqual(site.status().site, "tokyo")

    def test_a_file_that_is_no_site(self):
        self.write(b"{}")
        with self.assertRaises(Refused), edit(self.path):
            pass

    def test_a_link_stays_a_link(self):
        link = self.in_folder("link.json")
        os.symlink(self.path, link)
        with edit(link) as site:
            site.put("m", "fr", "Bonjour")
        self.assertTrue(os.path.islink(link))
        self.assertEqual(self.labels()["m"]["fr"], "Bonjour")

    def test_a_lock_that_another_holds(self):
        with open(self.path + ".lock", "ab") as lock:
            fcntl.flock(lock, fcntl.LOCK_EX)
            for wait in (0.05, float("nan")):
                with self.assertRaises(TimeoutError), edit(self.path, wait=wait):
                    pass
        with edit(self.path, wait=300):
            pass

    def test_a_lock_for_all_who_may_write_the_site(self):
        for mode in 0o664, 0o640:
            os.chmod(self.path, mode)
            mask = os.umask(0o077)
            try:
                with edit(self.path, wait=5):
                    pass
            finally:
                os.umask(mask)
            self.assertEqual(stat.S_IMODE(os.stat(self.path + ".lock").st_mode), mode)

    def test_what_is_no_lock(self):
        lock = self.path + ".lock"
        other = self.in_folder("other")
        for make in os.mkfifo, os.mkdir, lambda it: os.symlink(other, it):
            make(lock)
            with self.assertRaises(OSError), edit(self.path, wait=5):
                pass
            os.rmdir(lock) if os.path.isdir(lock) else os.unlink(lock)
        self.assertEqual(self.names(), ["paris.json"])

    def test_a_file_that_is_not_there_leaves_no_lock(self):
        none = self.in_folder("nowhere", "tokyo.json")
        for path, create in (self.in_folder("tokyo.json"), None), (none, None), (none, "tokyo"):
            with self.subTest(path=path, create=create):
                with self.assertRaises(FileNotFoundError) as raised, edit(path, create=create):
                    pass
                self.assertEqual(raised.exception.filename, os.path.realpath(path))
        with self.assertRaises(Refused), edit(self.in_folder("x.json"), create="Tokyo"):
            pass
        self.assertEqual(self.names(), ["paris.json"])

    def test_a_file_that_goes_while_its_lock_is_waited_for(self):
        with open(self.path + ".lock", "ab") as lock:
            fcntl.flock(lock, fcntl.LOCK_EX)
            removed = threading.Timer(0.2, lambda: (os.unlink(self.path), lock.close()))
            removed.start()
            with self.assertRaises(FileNotFoundError) as raised, edit(self.path, wait=300):
                pass
            removed.join()
        self.assertEqual(raised.exception.filename, os.path.realpath(self.path))

    def test_what_killed_programs_left(self):
        # (a file of somebody's own stays, whatever its end is)
        kept = ["next", "next.backup", "next.20261130", "next.lexicat-0123abcz"]
        for end in [*kept, "next.lexicat-0123abcd", "next.lexicat-89efffff"]:
            open(f"{self.path}.{end}", "wb").close()
        with edit(self.path):
            pass
        names = [f"paris.json.{end}" for end in ["lock", *kept]]
        self.assertEqual(self.names(), sorted(["paris.json", *names]))

    def test_a_document_that_no_command_reads(self):
        texts = {f"m{at}": {"en": "x" * 65535} for at in range(1025)}
        with self.assertRaisesRegex(OSError, "over the limit of 67108864: ") as raised:
            with edit(self.path) as site:
                site.import_maps(texts)
        self.assertEqual(raised.exception.errno, errno.EFBIG)
        self.is_as_it_was()
        with edit(self.path, limit=None) as site:
            site.import_maps(texts)
        size = os.stat(self.path).st_size
        self.assertGreater(size, 67108864)
        # The limit itself is written.
        with edit(self.path, limit=size) as site:
            site.put("m0", "en", "y" * 65535)
        with self.assertRaises(OSError), edit(self.path, limit=size - 1) as site:
            site.put("m0", "en", "z" * 65535)

    def test_an_edit_inside_itself(self):
        link = self.in_folder("link.json")
        os.symlink(self.path, link)
        with edit(self.path) as site:
            for path in self.path, link:
                with self.assertRaisesRegex(RuntimeError, "inside itself"), edit(path, wait=5):
                    pass
            site.put("m", "fr", "Bonjour")
            # Another file is another edit, and another thread waits.
            with edit(self.in_folder("tokyo.json"), create="tokyo"):
                pass
            other = threading.Thread(target=write, args=(self.path, 0))
            other.start()
            other.join(0.2)
            self.assertTrue(other.is_alive())
        other.join(60)
        self.assertEqual(len(self.labels()), 21)
        self.assertEqual(self.labels()["m"]["fr"], "Bonjour")

    def test_hard_links(self):
        other = self.in_folder("other.json")
        os.link(self.path, other)
        for path in self.path, other:
            with self.assertRaisesRegex(OSError, "hard links"), edit(path):
                pass
        os.unlink(other)
        with edit(self.path):
            pass

    def test_writers_in_several_processes(self):
        writers = [
            multiprocessing.get_context("spawn").Process(target=write, args=(self.path, at))
            for at in range(3)
        ]
        for it in writers:
            it.start()
        for it in writers:
            it.join(60)
        self.assertEqual([it.exitcode for it in writers], [0, 0, 0])
        wanted = {f"w{at}-{edited}" for at in range(3) for edited in range(20)} | {"m"}
        self.assertEqual(set(self.labels()), wanted)


def write(path, at):
    """What one of several writers does."""
    for edited in range(20):
        with edit(path) as site:
            site.put(f"w{at}-{edited}", "en", "x")


if __name__ == "__main__":
    unittest.main()
