"""The package over the library that SILKWARAM_LIBRARY names, or that the loader finds.

    SILKWARAM_LIBRARY=build/lib/libsilkwaram.so PYTHONPATH=bindings/python/src \
        python3 -m unittest discover -s bindings/python/tests
"""
import array
import contextlib
import copy
import io
import json
import mmap
import os
import pickle
import subprocess
import tempfile
import threading
import unittest
from unittest import mock

import silkwaram
from cases import PARIS, ROW, Case, document, run_python, side_by_side, written
from silkwaram import Choice, Label, Refused, Site, filter_tags, pick
from silkwaram._calls import CALLS

HEADER = os.path.join(os.path.dirname(__file__), "../../../include/silkwaram.h")
TOOL = os.path.join(os.path.dirname(__file__), "../../../tools/calls")
BUFFERS = (bytes, bytearray, memoryview, lambda text: array.array("B", text))
TEXT = "must be str or bytes-like, not"
TABLE = "zh-TW=zh-Hant, no=nb, en=en-US"


class Picks(Case):
    def test_picks(self):
        two, by_both = ["en", "fr"], {"fallbacks": TABLE, "widen": True}
        for case, field, tags, words, wanted in [
            ("as it was given", "da, en-GB;q=0.8, en;q=0.7", ["FR", "EN"], {}, "EN"),
            ("equal without case: the first", "en", ["fr", "En", "en"], {}, "En"),
            ("nothing", "ja", two, {}, None),
            ("no tags", "en", [], {}, None),
            ("the default", "ja", two, {"default": "FR"}, "fr"),
            ("a default that is refused", "ja, *;q=0", two, {"default": "fr"}, None),
            ("no header is no preference", None, two, {"default": "fr"}, "fr"),
            ("no header and no default", None, two, {}, None),
            ("a header of bytes", b"fr", iter(two), {}, "fr"),
            ("extended ranges", "de-*-DE", ["de", "de-DE"], {"extended": True}, "de-DE"),
            ("malformed, passed over", "en_US, fr;q=0.5", two, {"lenient": True}, "fr"),
            ("next by a table", "no, da", ["da", "NB"], {"fallbacks": TABLE}, "NB"),
            ("a table before regions", "en", ["en-au", "en-us"], by_both, "en-us"),
            ("a table and a default", "ja", ["nb"], {"fallbacks": TABLE, "default": "no"}, None),
            ("a tag that is not offered", "fr, en", two, {"offer": "*, fr;q=0"}, "en"),
            ("a default that is not", "ja", two, {"offer": b"fr", "default": "en"}, None),
            ("all are offered", "x-note", ["x-note"], {}, "x-note"),
            ("an empty offer", "x-note", ["x-note"], {"offer": ""}, None),
        ]:
            with self.subTest(case):
                self.assertEqual(pick(field, tags, **words), wanted)

    def test_what_is_refused(self):
        for case, field, tags, number, offset in [
            ("a malformed element", "fr, en_US", ["en"], 9, 4),
            ("a field that is too long", "," * 65536, ["en"], 8, None),
            ("a line feed in a tag", "en", ["en", "en-\n"], 3, 3),
            ("half a pair", "\ud800", ["en"], 9, 0),
        ]:
            with self.subTest(case):
                fault = self.refuses(number, pick, field, tags)
                self.assertEqual((fault.offset, fault.row), (offset, None))
        self.assertEqual(
            str(self.refuses(9, pick, "fr, en_US", ["en"])),
            "refused 9: field element at 4"
            " (each element of a field is a range, with or without a weight"
            " (RFC 9110 sections 12.4.2 and 12.5.4))",
        )

    def test_rules_that_are_refused(self):
        fault = self.refuses(31, pick, "e n", ["e n"], fallbacks="en=fr, EN=de")
        self.assertEqual((fault.code, fault.offset), ("fallback-malformed", 7))
        self.refuses(8, pick, "e n", ["en"], fallbacks="," * 65536)
        for ask, words in (pick, {"fallbacks": "e"}), (filter_tags, {}):
            fault = self.refuses(9, ask, "e n", ["e n"], offer="fr, e n", **words)
            self.assertEqual(fault.offset, 4)
            self.refuses(8, ask, "e n", ["en"], offer="," * 65536, **words)
        self.refuses(4, pick, "e n", ["en"], default="e", offer="e n", fallbacks="e")

    def test_filter_by_an_offer(self):
        for offer, tags in (None, ["en", "x-a"]), ("", ["en"]), ("x", ["x-a"]), ("fr", []):
            found = filter_tags("*", ["en", "x-a"], offer=offer)
            self.assertEqual([it.tag for it in found], tags)

    def test_buffers(self):
        for kind in BUFFERS:
            for field, tag in (b"ja, de", "de"), (b"ja", "en"):
                with self.subTest(kind=kind, field=field):
                    got = pick(kind(field), ["en", "de"], default=kind(b"en"))
                    self.assertEqual(got, tag)

    def test_wrong_types(self):
        generated, tags = (it for it in ["en", None]), "tags must be an iterable of str, not"
        self.wrong_types(
            [
                (lambda: pick(5, ["en"]), f"field {TEXT} int"),
                (lambda: pick(["en"], ["en"]), f"field {TEXT} list"),
                (lambda: pick("en", None), f"{tags} NoneType"),
                (lambda: pick("en", 5), f"{tags} int"),
                (lambda: pick("en", "en"), f"{tags} str"),
                (lambda: pick("en", b"en"), f"{tags} bytes"),
                (lambda: pick("en", bytearray(b"en")), f"{tags} bytearray"),
                (lambda: pick("en", memoryview(b"en")), f"{tags} memoryview"),
                (lambda: pick("en", [b"en"]), "tags[0] must be str, not bytes"),
                (lambda: pick("en", generated), "tags[1] must be str, not NoneType"),
                (lambda: pick("en", ["en"], default=1), f"default {TEXT} int"),
                (lambda: pick("en", ["en"], offer=1), f"offer {TEXT} int"),
                (lambda: pick("en", ["en"], fallbacks=["a=b"]), f"fallbacks {TEXT} list"),
            ]
        )

    def test_a_fault_of_what_gives_the_tags(self):
        def tags():
            yield "en"
            raise TypeError("of the caller")

        with self.assertRaisesRegex(TypeError, "^of the caller$"):
            pick("en", tags())


class Questions(Case):
    """What readers ask of a site that is open; test_mapped asks it of files where they lie."""

    def ways(self, content=PARIS):
        """Gives the site of a document, in each way to have it."""
        with Site.open(content) as site:
            yield site

    def test_lookup(self):
        german = Label("de", ["Hallo", "Guten Tag"], False)
        for site in self.ways():
            for id, field, default, wanted in [
                ("greeting", "de-CH, en;q=0.5", None, german),
                ("greeting", "ja", "@none", Label("@none", ["*"], True)),
                *((id, "ja", None, None) for id in ("greeting", "bye", "nowhere", "a", "z")),
                ("greeting", "fr, *;q=0", "en", None),
                ("bye", "en", None, None),
                ("nowhere", "en", "en", None),
            ]:
                with self.subTest(id=id, field=field, default=default):
                    self.assertEqual(site.lookup(id, field, default=default), wanted)

    def test_text(self):
        quoted = 'quote "],["'
        places = 2, 63, 64, 2**31, 2**32, 2**63, 2**64 - 1, 2**64, 2**64 + 1, 2**65, 10**30

        class One:
            def __index__(self):
                return 1

        for site in self.ways():
            for id, field, words, wanted in [
                ("greeting", "de", {}, "Hallo"),
                *(("greeting", "de", {"place": it}, "Guten Tag") for it in (1, True, One())),
                *(("greeting", "de", {"place": it}, None) for it in places),
                ("größe", b"ja", {}, ROW),
                (quoted, "en", {"widen": True}, "a\nb"),
                (quoted, "en", {}, None),
                ("greeting", None, {"default": "en"}, "Hello"),
                ("greeting", "e n, en", {"lenient": True}, "Hello"),
                ("greeting", "de-*-DE, en", {"extended": True}, "Hallo"),
            ]:
                with self.subTest(id=id, field=field, words=words):
                    self.assertEqual(site.text(id, field, **words), wanted)
            for place in (-1, -(2**64), -(2**64) + 1):
                with self.assertRaisesRegex(ValueError, "^place counts from 0$"):
                    site.text("greeting", "de", place=place)

    def test_texts(self):
        for site in self.ways():
            self.assertEqual(site.texts("greeting", "de"), ["Hallo", "Guten Tag"])
            self.assertEqual(site.texts("greeting", None, default="en"), ["Hello"])
            self.assertIsNone(site.texts("bye", "en"))

    def test_filter(self):
        for site in self.ways():
            self.assertEqual(
                site.filter("greeting", "en;q=0.5, de"),
                [Choice("de", 1000, ["Hallo", "Guten Tag"]), Choice("en", 500, ["Hello"])],
            )
            self.assertEqual(site.filter("greeting", "ja"), [])
            self.assertEqual(site.filter("bye", "*"), [])

    def test_offers(self):
        hello, note = Label("en", ["Hello"], False), Label("x-note", ["ask Anna"], False)
        notes = written(("m", "en", ["Hello"]), ("m", "x-note", ["ask Anna"]))
        for site in self.ways(notes):
            for offer, field, default, wanted in [
                (None, "x-note, en;q=0.5", None, hello),
                (None, "x-note", None, None),
                (None, "fr", "x-note", None),
                ("*, x;q=0", "x-note, en;q=0.5", None, hello),
                ("*", "x-note, en;q=0.5", None, note),
                ("*", "fr", "x-note", note._replace(is_default=True)),
                ("x", "x-note, en;q=0.5", None, note),
                ("fr, de", "x-note, en;q=0.5", "en", None),
                (",", "en", "en", None),
                ("", "x-note, en;q=0.5", None, hello),
                (b"en", "x-note, en;q=0.5", None, hello),
            ]:
                with self.subTest(offer=offer, field=field, default=default):
                    words = {"default": default, "offer": offer}
                    self.assertEqual(site.lookup("m", field, **words), wanted)
                    texts = None if wanted is None else wanted.texts
                    self.assertEqual(site.texts("m", field, **words), texts)
                    self.assertEqual(site.text("m", field, **words), texts and texts[0])
            self.assertEqual(site.filter("m", "*"), [Choice("en", 1000, ["Hello"])])
            shown = site.filter("m", "*", offer="x-note")
            self.assertEqual(shown, [Choice("x-note", 1000, ["ask Anna"])])

    def test_fallbacks(self):
        german, english = Label("de", ["Hallo", "Guten Tag"], False), Label("en", ["Hello"], False)
        for site in self.ways():
            for fallbacks, words, wanted in [
                ("gsw=de, gsw-AT=en", {}, german),
                ("gsw=bar, bar=de-AT", {}, german),
                (b"GSW=en", {}, english),
                ("gsw=de", {"offer": "en", "default": "en"}, english._replace(is_default=True)),
                ("gsw=de", {"offer": "en"}, None),
                ("de=en", {"default": "gsw"}, None),
                ("", {}, None),
            ]:
                with self.subTest(fallbacks=fallbacks, words=words):
                    words = {"fallbacks": fallbacks, **words}
                    self.assertEqual(site.lookup("greeting", "gsw-CH", **words), wanted)
                    texts = None if wanted is None else wanted.texts
                    self.assertEqual(site.texts("greeting", "gsw-CH", **words), texts)
                    self.assertEqual(site.text("greeting", "gsw-CH", **words), texts and texts[0])
            for ask in (site.lookup, site.text, site.texts):
                fault = self.refuses(31, ask, "m", "e n", fallbacks=" ,gsw=de,a")
                self.assertEqual(fault.offset, 9)
                self.refuses(8, ask, "m", "e n", fallbacks="," * 65536)
                self.refuses(9, ask, "m", "en", offer="e n", fallbacks="a")
                wrong = f"fallbacks {TEXT} int"
                self.wrong_types([(lambda: ask("m", "en", fallbacks=5), wrong)])

    def test_offers_that_are_refused(self):
        for site in self.ways():
            for ask in (site.lookup, site.text, site.texts, site.filter):
                fault = self.refuses(9, ask, "m", "e n, fr", offer="fr, en_US")
                self.assertEqual(fault.offset, 4)
                self.refuses(8, ask, "m", "en", offer="," * 65536)
                self.refuses(10, ask, "@m", "en", offer="e n")
                self.wrong_types([(lambda: ask("m", "en", offer=5), f"offer {TEXT} int")])

    def test_buffers(self):
        for site in self.ways():
            for kind in BUFFERS:
                with self.subTest(kind=kind):
                    id, field = kind("größe".encode()), kind(b"ja")
                    self.assertEqual(site.text(id, field), ROW)
                    self.assertEqual(site.lookup(id, field), Label("ja", [ROW], False))
                    self.assertEqual(site.filter(id, field), [Choice("ja", 1000, [ROW])])
                    self.assertEqual(site.text(b"greeting", "fr", default=kind(b"en")), "Hello")

    def test_an_answer_that_is_longer_than_the_first_room(self):
        text = "a" * 65535
        for site in self.ways(written(("m", "en", [text] * 3))):
            self.assertEqual(site.text("m", "en", place=2), text)
            self.assertEqual(site.lookup("m", "en"), Label("en", [text] * 3, False))

    def test_what_is_refused(self):
        for site in self.ways():
            for id in (b"\xff", b"greet\xe9", "\ud800", "", "@m", "m\0", "m" * 129):
                for ask in (site.lookup, site.text, site.texts, site.filter):
                    self.refuses(10, ask, id, "e n")
            self.refuses(10, site.text, "@m", "de", place=2**64)
            fault = self.refuses(3, site.text, "greeting", "e n", default="en-")
            self.assertEqual((fault.offset, fault.row), (3, None))
            self.assertEqual(self.refuses(9, site.filter, "greeting", "fr, en_US").offset, 4)
            self.refuses(8, site.lookup, "greeting", "," * 65536)

    def test_wrong_types(self):
        for site in self.ways():
            self.wrong_types(
                [
                    (lambda: site.text(None, "en"), f"id {TEXT} NoneType"),
                    (lambda: site.text("m", 5), f"field {TEXT} int"),
                    (lambda: site.text("m", "en", default=5), f"default {TEXT} int"),
                    (lambda: site.text("m", "en", place=1.5), "place must be int, not float"),
                    (lambda: site.text("m", "en", place="1"), "place must be int, not str"),
                    (lambda: site.text("m", "en", place=None), "place must be int, not NoneType"),
                    (lambda: site.texts("m", "en", default=5), f"default {TEXT} int"),
                    (lambda: site.lookup(None, "en"), f"id {TEXT} NoneType"),
                    (lambda: site.lookup(5, "en"), f"id {TEXT} int"),
                    (lambda: site.lookup("m", ["en"]), f"field {TEXT} list"),
                    (lambda: site.filter(["m"], "en"), f"id {TEXT} list"),
                    (lambda: site.filter("m", {}), f"field {TEXT} dict"),
                ]
            )
            self.assertEqual(site.text("greeting", "en"), "Hello")


class Sites(Case):
    """What is asked of open sites alone."""

    def setUp(self):
        self.site = Site.open(PARIS)
        self.addCleanup(self.site.close)

    def test_bundle(self):
        german, row = {"de": ["Hallo", "Guten Tag"]}, {"ja": ROW}
        for field, default, wanted in [
            ("ja, de;q=0.5", None, {"greeting": german, "größe": row}),
            ("fr", None, {}),
            ("fr", "en", {"greeting": {"en": "Hello"}}),
            *((kind(b"ja"), None, {"größe": row}) for kind in BUFFERS),
        ]:
            with self.subTest(field=field, default=default):
                self.assertEqual(self.site.bundle(field, default=default), wanted)

    def test_bundle_by_fallbacks(self):
        wanted = {"greeting": {"de": ["Hallo", "Guten Tag"]}, "größe": {"ja": ROW}}
        got = self.site.bundle("gsw", fallbacks="gsw=de, de=ja")
        self.assertEqual(got, wanted)
        self.assertEqual(self.refuses(31, self.site.bundle, "e n", fallbacks="gsw").offset, 0)

    def test_bundle_of_an_offer(self):
        notes = written(("m", "en", ["Hello"]), ("m", "x-note", ["ask Anna"]))
        with Site.open(notes) as site:
            for offer, wanted in [
                (None, {"m": {"en": "Hello"}}),
                ("*", {"m": {"x-note": "ask Anna"}}),
                ("fr", {}),
            ]:
                got = site.bundle("x-note, en;q=0.5", default="en", offer=offer)
                self.assertEqual(got, wanted)

    def test_wrong_types(self):
        site = self.site
        self.wrong_types(
            [
                (lambda: site.bundle(5), f"field {TEXT} int"),
                (lambda: site.bundle("en", default=("en",)), f"default {TEXT} tuple"),
                (lambda: site.reload(None), f"document {TEXT} NoneType"),
                (lambda: Site.open(io.BytesIO(PARIS)), f"document {TEXT} BytesIO"),
            ]
        )
        self.assertEqual(site.text("greeting", "en"), "Hello")


class Slow:
    """The library, whose first reading of a document ends when it is told to."""

    def __init__(self, library):
        self.library, self.begun, self.end = library, threading.Event(), threading.Event()

    def __getattr__(self, name):
        return getattr(self.library, name)

    def sw_site_open(self, *words):
        is_first = not self.begun.is_set()
        self.begun.set()
        if is_first:
            self.end.wait(300)
        return self.library.sw_site_open(*words)


@contextlib.contextmanager
def slow_reading():
    """Gives what is set when a document is being read, and what is to be set for its end."""
    slow = Slow(silkwaram._site.library)
    with mock.patch.object(silkwaram._site, "library", slow):
        try:
            yield slow.begun, slow.end
        finally:
            slow.end.set()


class Counting:
    """The library, and the handles that are open."""

    def __init__(self, library):
        self.library, self.held = library, set()

    def __getattr__(self, name):
        return getattr(self.library, name)

    def _changed(self, handle, call):
        result = call()
        (self.held.add if handle.held else self.held.discard)(id(handle))
        return result

    def sw_site_open(self, text, size, handle, told):
        return self._changed(handle, lambda: self.library.sw_site_open(text, size, handle, told))

    def sw_site_share(self, handle, other):
        return self._changed(other, lambda: self.library.sw_site_share(handle, other))

    def sw_site_free(self, handle):
        return self._changed(handle, lambda: self.library.sw_site_free(handle))


@contextlib.contextmanager
def counting():
    """Gives the handles that are open, of those that are opened meanwhile."""
    counted = Counting(silkwaram._site.library)
    with mock.patch.object(silkwaram._site, "library", counted):
        yield counted.held


class Handles(Case):
    def test_a_site_that_is_closed(self):
        with Site.open(PARIS) as site:
            self.assertEqual(site.text("greeting", "en"), "Hello")
        ask = lambda: site.text("greeting", "en")
        self.is_closed(ask, lambda: site.bundle("en"), site.share)
        site.close()

    def test_a_share_outlives_its_site(self):
        site = Site.open(PARIS)
        other = site.share()
        site.close()
        self.assertEqual(other.text("greeting", "en"), "Hello")
        other.close()

    def test_reload(self):
        with Site.open(PARIS) as site, site.share() as before:
            site.reload(document(("greeting", "en", ["Good day"])))
            self.assertEqual(site.text("greeting", "en"), "Good day")
            self.assertEqual(before.text("greeting", "en"), "Hello")

    def test_a_document_that_is_refused_leaves_the_old_site(self):
        cases = [
            (b'{"a\xff', 18, 3, None),
            (document(("a", "en", ["x"]), ("b", "en", 5)), 20, None, 1),
            (document(("a", "e-", ["x"])), 3, 2, 0),
        ]
        with Site.open(PARIS) as site:
            for text, number, offset, row in cases:
                with self.subTest(number=number):
                    fault = self.refuses(number, site.reload, text)
                    self.assertEqual((fault.offset, fault.row), (offset, row))
            self.assertEqual(site.text("greeting", "en"), "Hello")

    def test_a_copy_is_a_share(self):
        site = Site.open(PARIS)
        other = copy.copy(site)
        self.assertIsInstance(other, Site)
        other.close()
        self.assertEqual(site.text("greeting", "en"), "Hello")
        other = copy.copy(site)
        del other
        self.assertEqual(site.text("greeting", "en"), "Hello")
        other = copy.copy(site)
        site.close()
        self.assertEqual(other.text("greeting", "en"), "Hello")
        other.close()

    def test_what_copies_no_site(self):
        with Site.open(PARIS) as site:
            pickles = lambda it: pickle.dumps(it, 0)
            for make in (copy.deepcopy, pickle.dumps, pickles, lambda it: copy.deepcopy([it])):
                with self.assertRaisesRegex(TypeError, r"neither pickled nor copied .* share\(\)"):
                    make(site)
            self.assertEqual(site.text("greeting", "en"), "Hello")

    def test_documents_in_buffers(self):
        for kind in BUFFERS:
            with self.subTest(kind=kind), Site.open(kind(PARIS)) as site:
                self.assertEqual(site.text("greeting", "en"), "Hello")
        with Site.open(PARIS.decode()) as site:
            self.assertEqual(site.text("größe", "ja"), ROW)

    def test_a_document_that_is_mapped(self):
        with tempfile.TemporaryFile() as it:
            it.write(PARIS)
            it.flush()
            with mmap.mmap(it.fileno(), 0, access=mmap.ACCESS_READ) as mapped:
                with Site.open(mapped) as site:
                    self.assertEqual(site.text("greeting", "en"), "Hello")

    def test_a_name_in_place_of_a_document(self):
        hint = "(the document itself is wanted, not its name)"
        for text in ("site.json", "/srv/größe.json"):
            with self.subTest(text=text):
                fault = self.refuses(19, Site.open, text)
                self.assertEqual(str(fault), f"refused 19: not JSON {hint}")
        for text in ("", '{"cells":', b"site.json", "x" * 1000):
            with self.subTest(text=text):
                said = str(self.refuses(19, Site.open, text))
                self.assertTrue(said.startswith("refused 19: not JSON (a document is one"))

    def test_questions_do_not_wait_for_a_document_that_is_read(self):
        site, answers = Site.open(PARIS), []
        self.addCleanup(site.close)
        with slow_reading() as (begun, end):
            reading = threading.Thread(
                target=site.reload, args=[document(("greeting", "en", ["Good day"]))]
            )
            reading.start()
            self.assertTrue(begun.wait(300))
            asking = threading.Thread(
                target=lambda: answers.append((site.text("greeting", "en"), end.is_set()))
            )
            asking.start()
            asking.join(120)
            end.set()
            asking.join()
            reading.join()
        self.assertEqual(answers, [("Hello", False)])
        self.assertEqual(site.text("greeting", "en"), "Good day")

    def test_a_second_reload_waits_for_the_first(self):
        site = Site.open(PARIS)
        self.addCleanup(site.close)
        with slow_reading() as (begun, end):
            first, second = [
                threading.Thread(target=site.reload, args=[document(("greeting", "en", [text]))])
                for text in ("first", "second")
            ]
            first.start()
            self.assertTrue(begun.wait(300))
            second.start()
            second.join(0.2)
            end.set()
            first.join()
            second.join()
        self.assertEqual(site.text("greeting", "en"), "second")

    def test_a_closed_site_is_opened_by_a_reload(self):
        site = Site.open(PARIS)
        site.close()
        site.reload(PARIS)
        self.assertEqual(site.text("greeting", "en"), "Hello")
        site.close()

    def test_each_site_that_is_opened_is_let_go(self):
        with counting() as held:
            with Site.open(PARIS) as site:
                self.assertEqual(len(held), 1)
                for _ in range(3):
                    site.reload(PARIS)
                    self.assertEqual(len(held), 1)
                with self.assertRaises(Refused):
                    site.reload("{")
                other = site.share()
                self.assertEqual(len(held), 2)
            self.assertEqual(len(held), 1)
            del other
            self.assertEqual(held, set())
            Site.open(PARIS)
            self.assertEqual(held, set())

    def test_a_site_whose_class_did_not_begin_it(self):
        program = """
from silkwaram import Site
class Bare(Site):
    def __init__(self, name):
        self.name = name
Bare("a")
try:
    Bare.open("{}")
except TypeError:
    pass
kept = Site.open('{"cells":[],"kind":"site","site":"paris","version":2}')
"""
        ran = run_python(program)
        self.assertEqual((ran.returncode, ran.stderr), (0, ""))

    def test_threads_that_use_one_site_and_shares_of_it(self):
        wrong = []

        def asks(site):
            return lambda: wrong.extend(
                site for _ in range(2000) if site.text("greeting", "en") != "Hello"
            )

        with Site.open(PARIS) as site:
            side_by_side(*map(asks, [site, site, site.share(), site.share()]))
        self.assertEqual(wrong, [])


class Copies(unittest.TestCase):
    """What is here and elsewhere too."""

    def test_the_version(self):
        self.assertEqual(".".join(map(str, silkwaram.library_version())), silkwaram.__version__)

    @unittest.skipUnless(os.path.exists(HEADER), "outside the repository")
    def test_the_version_and_the_calls_of_the_header(self):
        with open(HEADER, encoding="utf-8") as it:
            text = it.read()
        major, minor, patch = map(int, silkwaram.__version__.split("."))
        self.assertIn(f"#define SW_VERSION {10000 * major + 100 * minor + patch}\n", text)
        declared = subprocess.run([TOOL, "json"], check=True, stdout=subprocess.PIPE).stdout
        self.assertEqual(json.loads(declared), CALLS)


class Libraries(unittest.TestCase):
    def test_another_library_and_none(self):
        for path, message in [
            ("libc.so.6", "libc.so.6 is not Silkwaram's library"),
            ("/nowhere/libsilkwaram.so", "/nowhere/libsilkwaram.so cannot be loaded"),
        ]:
            program = "try:\n    from silkwaram import pick\nexcept ImportError as fault:\n    print(fault)"
            ran = run_python(program, SILKWARAM_LIBRARY=path)
            with self.subTest(path=path):
                self.assertIn(message, ran.stdout)
                self.assertEqual((ran.returncode, ran.stderr), (0, ""))


class Faults(Case):
    def test_what_a_refusal_says(self):
        subtag = "(each subtag is 1 to 8 letters or digits, with a hyphen between two)"
        clash = "two different edits of a message in a language have two timestamps"
        long, version = "each text of a label has at most 65535 bytes", "is 1 or 2"
        for fault, line in [
            (Refused(3, 2), f"3: subtag at 2 {subtag}"),
            (Refused(3, 2, 0), f"3: subtag at 2 in row 0 {subtag}"),
            (Refused(11, None, 7, count=1), f"11: text 1 is over 65535 bytes in row 7 ({long})"),
            (
                Refused(13, count=5),
                f"13: one stamp is used for two different edits, cell 5 ({clash})",
            ),
            (
                Refused(28, of_second=True),
                f"28: version unknown of the second document (the version of a document {version})",
            ),
            (Refused(99), "99: unknown"),
        ]:
            with self.subTest(line=line):
                self.assertEqual(str(fault), f"refused {line}")

    def test_the_document_that_is_wanted(self):
        site = Site.open(PARIS)
        for call, wanted in [
            (site.reload, "a site document is wanted"),
            (site.take, "a delta document is wanted"),
            (site.delta_for, "a summary document is wanted"),
            (site.import_maps, "language maps are wanted"),
            (lambda it: site.update({}, it), "language maps are wanted"),
        ]:
            with self.subTest(wanted):
                self.assertEqual(self.refuses(20, call, "[]").wanted, wanted)

    def test_a_refusal_that_is_pickled(self):
        for fault in (
            Refused(3, 2, 4),
            Refused(13, count=7),
            Refused(19, of_second=True),
            Refused(20, wanted="a document is wanted"),
        ):
            for it in (pickle.loads(pickle.dumps(fault)), copy.copy(fault)):
                self.assertIs(type(it), Refused)
                self.assertEqual(vars(it), vars(fault))
                self.assertEqual(str(it), str(fault))


if __name__ == "__main__":
    unittest.main()
