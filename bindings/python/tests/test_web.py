"""The middleware for WSGI and ASGI, asked without a server. web.t asks over HTTP.

    SILKWARAM_LIBRARY=build/lib/libsilkwaram.so PYTHONPATH=bindings/python/src \
        python3 -m unittest discover -s bindings/python/tests
"""
import asyncio
import contextlib
import os
import sys
import threading
import time
import unittest
from unittest import mock
from wsgiref.util import setup_testing_defaults
from wsgiref.validate import validator

import cases
from cases import FileCase, run_python, side_by_side
from silkwaram import Refused, Site, _site_file
from silkwaram._site_file import SiteFile
from silkwaram.web import LABEL, LANGUAGE, ASGILanguageMiddleware, WSGILanguageMiddleware

TAGS = ["en", "fr", "zh-CN"]
OF_TAGS = {"tags": TAGS, "default": "en"}
# What a reader sends, in header lines; the language, and that without `lenient`.
READERS = [
    ([], "en", "en"),
    (["*"], "en", "en"),
    ([""], "en", "en"),
    (["fr-CA, en;q=0.5"], "fr", "fr"),
    (["da, en-GB;q=0.8, en;q=0.7"], "en", "en"),
    (["zh-CN,zh;q=0.9"], "zh-CN", "zh-CN"),
    (["fr;q=0.5", "zh-CN"], "zh-CN", "zh-CN"),
    (["en_US, fr;q=0.5"], "fr", "en"),
    (["\xe9, fr;q=0.5"], "fr", "en"),
    (["\xe9" * 40000 + ", fr"], "fr", "en"),
    (["fr"] + ["," * 30000] * 3, "en", "en"),
    (["ja, *;q=0"], "en", "en"),
    (["*;q=0"], "en", "en"),
    (["fr;q=0, en;q=0, zh-CN;q=0"], "en", "en"),
]
# Those who refuse the default too, and what they get with `strict`.
STRICT_READERS = [
    (["*;q=0"], None),
    (["ja, *;q=0"], None),
    (["ja", "en;q=0"], None),
    (["fr, *;q=0"], "fr"),
    (["ja"], "en"),
    ([], "en"),
]
# The Vary lines of an application, and what the response has.
VARIES = [
    ([], ["Accept-Language"]),
    (["Cookie"], ["Cookie, Accept-Language"]),
    (["Cookie", "Origin,"], ["Cookie, Origin, Accept-Language"]),
    (["accept-language, Cookie"], ["accept-language, Cookie"]),
    (["Cookie", "ACCEPT-LANGUAGE"], ["Cookie", "ACCEPT-LANGUAGE"]),
    (["*"], ["*"]),
    (["Cookie, *"], ["Cookie, *"]),
    (["Accept-Language-Of-Mine"], ["Accept-Language-Of-Mine, Accept-Language"]),
]
# A status, the Content-Language that the application sets, and those of the response.
STATUSES = [
    (200, [], ["fr"]),
    (404, [], ["fr"]),
    (500, [], ["fr"]),
    (204, [], []),
    (304, [], []),
    (200, ["de"], ["de"]),
]
FIELD = "fr, en;q=0.5"


def document(greeting):
    texts = [("@none", "*"), ("en", greeting), ("fr", "Bonjour")]
    cells = [("greeting", lang, [text]) for lang, text in texts]
    return cases.document(*cells, ("title", "en", ["Paper"]))


def first_text(given):
    """What an application answers that has the labels of a site."""
    label = given[LABEL]("greeting")
    return str(label and label.texts[0])


def values(headers, name):
    return [value for it, value in headers if it.lower() == name]


def ask_wsgi(app, lines=(), **environ):
    """Returns status, headers and body, with the calls checked against PEP 3333."""
    setup_testing_defaults(environ)
    environ.update(SERVER_PROTOCOL="HTTP/1.1", QUERY_STRING="")
    if lines:
        environ["HTTP_ACCEPT_LANGUAGE"] = ",".join(lines)
    begun = []

    def start_response(status, headers, exc_info=None):
        begun[:] = [int(status[:3]), headers]
        return lambda data: None

    answer = validator(app)(environ, start_response)
    try:
        body = b"".join(answer)
    finally:
        answer.close()
    return begun[0], begun[1], body


def ask_asgi(app, lines=(), kind="http"):
    """Returns status, headers and body; the scope has what a server puts into it."""
    scope = {
        "type": kind,
        "asgi": {"version": "3.0"},
        "headers": [(b"accept-language", line.encode("latin-1")) for line in lines],
    }
    given, sent = dict(scope), []

    async def receive():
        return {"type": "http.request", "body": b"", "more_body": False}

    async def send(event):
        sent.append(event)

    asyncio.run(app(scope, receive, send))
    if scope != given:
        raise AssertionError("the scope of the server is changed")
    headers = [(name.decode(), value.decode()) for name, value in sent[0]["headers"]]
    return sent[0]["status"], headers, b"".join(it["body"] for it in sent[1:])


def wsgi_app(status=200, headers=(), text=None):
    """An application that answers with the language that it is given, or with a text."""

    def app(environ, start_response):
        has_type = [] if status in (204, 304) else [("Content-Type", "text/plain")]
        start_response(f"{status} Status", has_type + list(headers))
        return [(text or (lambda it: str(it[LANGUAGE])))(environ).encode()]

    return app


def asgi_app(status=200, headers=(), text=None):
    async def app(scope, receive, send):
        lines = [(name.lower().encode(), value.encode()) for name, value in headers]
        await send({"type": "http.response.start", "status": status, "headers": lines})
        body = (text or (lambda it: str(it[LANGUAGE])))(scope).encode()
        await send({"type": "http.response.body", "body": body})

    return app


WAYS = [
    ("WSGI", WSGILanguageMiddleware, wsgi_app, ask_wsgi),
    ("ASGI", ASGILanguageMiddleware, asgi_app, ask_asgi),
]


class Both(unittest.TestCase):
    """What holds for WSGI and for ASGI."""

    def test_readers(self):
        for name, middleware, app, ask in WAYS:
            for lines, *wanted in READERS:
                for lenient, language in zip((True, False), wanted):
                    with self.subTest(name=name, lines=str(lines)[:60], lenient=lenient):
                        asked = middleware(app(), **OF_TAGS, lenient=lenient)
                        status, headers, body = ask(asked, lines)
                        said = [] if language is None else [language]
                        self.assertEqual((status, body.decode()), (200, str(language)))
                        self.assertEqual(values(headers, "content-language"), said)
                        self.assertEqual(values(headers, "vary"), ["Accept-Language"])

    def test_strict_readers(self):
        texts = {None: "None", "en": "Hello", "fr": "Bonjour"}
        with Site.open(document("Hello")) as site:
            for name, middleware, app, ask in WAYS:
                of_tags = middleware(app(), **OF_TAGS, strict=True)
                words = {"site": site, "message": "greeting", "default": "en"}
                of_site = middleware(app(text=first_text), **words, strict=True)
                by_default = middleware(app(text=first_text), **words)
                for lines, language in STRICT_READERS:
                    with self.subTest(name=name, lines=lines):
                        said = [] if language is None else [language]
                        for asked, body in (of_tags, str(language)), (of_site, texts[language]):
                            status, headers, got = ask(asked, lines)
                            self.assertEqual((status, got.decode()), (200, body))
                            self.assertEqual(values(headers, "content-language"), said)
                        _, headers, got = ask(by_default, lines)
                        self.assertEqual(got.decode(), texts[language or "en"])
                        self.assertEqual(values(headers, "content-language"), [language or "en"])

    def test_widened_readers(self):
        held = cases.document(("greeting", "en", ["Hello"]), ("greeting", "pt-br", ["Oi"]))
        with Site.open(held) as site:
            for name, middleware, app, ask in WAYS:
                for widen, tag, text in (False, "en", "Hello"), (True, "pt-BR", "Oi"):
                    with self.subTest(name=name, widen=widen):
                        words = {"default": "en", "widen": widen}
                        of_tags = middleware(app(), tags=["en", "pt-BR"], **words)
                        self.assertEqual(ask(of_tags, ["pt"])[2].decode(), tag)
                        of_site = middleware(app(text=first_text), site=site, **words)
                        self.assertEqual(ask(of_site, ["pt"])[2].decode(), text)

    def test_a_text_that_is_no_header(self):
        for name, middleware, app, ask in WAYS[:1]:
            asked = middleware(app(), **OF_TAGS)
            body = asked({"HTTP_ACCEPT_LANGUAGE": "\u65e5\u672c, fr"}, lambda *_: None)
            self.assertEqual(body, [b"fr"])

    def test_without_a_default(self):
        for name, middleware, app, ask in WAYS:
            with self.subTest(name=name):
                asked = middleware(app(), tags=iter(TAGS), default=None)
                self.assertEqual(ask(asked)[2], b"None")
                self.assertEqual(ask(asked, ["fr"])[2], b"fr")

    def test_vary(self):
        for name, middleware, app, ask in WAYS:
            for given, wanted in VARIES:
                with self.subTest(name=name, given=given):
                    asked = middleware(app(headers=[("Vary", it) for it in given]), **OF_TAGS)
                    self.assertEqual(values(ask(asked)[1], "vary"), wanted)

    def test_content_language(self):
        for name, middleware, app, ask in WAYS:
            for status, given, wanted in STATUSES:
                with self.subTest(name=name, status=status, given=given):
                    if status in (204, 304) and middleware is WSGILanguageMiddleware:
                        continue  # (below: PEP 3333's validator wants no body there)
                    lines = [("Content-Language", it) for it in given]
                    asked = middleware(app(status, lines), **OF_TAGS)
                    got, headers, _ = ask(asked, [FIELD])
                    self.assertEqual(got, status)
                    self.assertEqual(values(headers, "content-language"), wanted)
                    self.assertEqual(values(headers, "vary"), ["Accept-Language"])

    def test_other_headers_stay_in_their_order(self):
        given = [("Set-Cookie", "a=1"), ("X-Name", "\xe9"), ("Set-Cookie", "b=2")]
        for name, middleware, app, ask in WAYS:
            with self.subTest(name=name):
                _, headers, _ = ask(middleware(app(headers=given), **OF_TAGS))
                self.assertEqual(values(headers, "set-cookie"), ["a=1", "b=2"])
                self.assertEqual(values(headers, "x-name"), ["\xe9"])

    def test_labels_of_a_site(self):
        def text(given):
            label, other = given[LABEL]("greeting"), given[LABEL]("title")
            return f"{given[LANGUAGE]} {label.texts[0]} {other.language} {given[LABEL]('none')}"

        with Site.open(document("Hello")) as site:
            for name, middleware, app, ask in WAYS:
                asked = middleware(app(text=text), site=site, message="greeting", default="en")
                for lines, body, language in [
                    ([FIELD], "fr Bonjour en None", "fr"),
                    ([], "en Hello en None", "en"),
                    (["en_US"], "en Hello en None", "en"),
                    (["," * 65536], "en Hello en None", "en"),
                ]:
                    with self.subTest(name=name, lines=str(lines)[:60]):
                        _, headers, got = ask(asked, lines)
                        self.assertEqual(got.decode(), body)
                        self.assertEqual(values(headers, "content-language"), [language])

    def test_what_readers_are_offered(self):
        def text(given):
            label = given[LABEL]("m")
            return "none" if label is None else label.texts[0]

        notes = cases.written(("m", "en", ["Hello"]), ("m", "x-note", ["ask Anna"]))
        with Site.open(notes) as site:
            for name, middleware, app, ask in WAYS:
                for words, body in [
                    ({}, "Hello"),
                    ({"default": "x-note"}, "none"),
                    ({"offer": "*"}, "ask Anna"),
                    ({"offer": "fr"}, "none"),
                ]:
                    with self.subTest(name=name, words=words):
                        asked = middleware(app(text=text), **{"site": site, "default": "en", **words})
                        line = "fr" if "default" in words else "x-note"
                        self.assertEqual(ask(asked, [line])[2].decode(), body)

    def test_fallbacks(self):
        def text(given):
            return given[LABEL]("greeting").texts[0]

        table = {"fallbacks": "gsw=fr", "default": "en"}
        with Site.open(document("Hello")) as site:
            for name, middleware, app, ask in WAYS:
                with self.subTest(name=name):
                    asked = middleware(app(), tags=TAGS, **table)
                    self.assertEqual(ask(asked, ["gsw-CH"])[2], b"fr")
                    asked = middleware(app(text=text), site=site, **table)
                    self.assertEqual(ask(asked, ["gsw-CH"])[2], b"Bonjour")
                    asked = middleware(app(), tags=TAGS, offer="en", **table)
                    self.assertEqual(ask(asked, ["gsw-CH"])[2], b"en")

    def test_which_tags_are_offered(self):
        for name, middleware, app, ask in WAYS:
            for offer, line, tag in [
                ("en, zh", "fr, zh-CN;q=0.5", b"zh-CN"),
                ("en, zh", "fr", b"en"),
                ("", "fr", b"fr"),
                ("*, fr;q=0", "fr", b"en"),
            ]:
                with self.subTest(name=name, offer=offer, line=line):
                    asked = middleware(app(), **OF_TAGS, offer=offer)
                    self.assertEqual(ask(asked, [line])[2], tag)

    def test_a_field_that_is_refused_where_no_message_is_named(self):
        with Site.open(document("Hello")) as site:
            for name, middleware, app, ask in WAYS:
                for lenient, line in [(True, "fr" + "," * 65536), (False, "en_US, fr")]:
                    with self.subTest(name=name, lenient=lenient):
                        words = {"site": site, "default": "en", "lenient": lenient}
                        asked = middleware(app(text=first_text), **words)
                        self.assertEqual(ask(asked, [line])[2], b"Hello")

    def test_a_site_without_a_language(self):
        with Site.open(document("Hello")) as site:
            for name, middleware, app, ask in WAYS:
                for words in (
                    {"message": "greeting", "default": "@none"},
                    {"message": "missing", "default": "en"},
                    {"default": "en"},
                ):
                    with self.subTest(name=name, words=words):
                        _, headers, _ = ask(middleware(app(), site=site, **words))
                        self.assertEqual(values(headers, "content-language"), [])
                        self.assertEqual(values(headers, "vary"), ["Accept-Language"])

    def test_a_reload_during_a_request(self):
        for name, middleware, app, ask in WAYS:
            with self.subTest(name=name), Site.open(document("old")) as site:

                def text(given):
                    before = given[LABEL]("greeting").texts[0]
                    site.reload(document("new"))
                    return f"{before} {given[LABEL]('greeting').texts[0]}"

                asked = middleware(app(text=text), site=site, default="en")
                self.assertEqual(ask(asked)[2], b"old old")
                self.assertEqual(ask(asked)[2], b"new new")

    def test_reloads_beside_requests(self):
        def text(given):
            return " ".join(given[LABEL]("greeting").texts[0] for _ in range(20))

        for name, middleware, app, ask in WAYS:
            site, wrong = Site.open(document("0")), []
            asked = middleware(app(text=text), site=site, default="en")

            def requests():
                for _ in range(50):
                    body = ask(asked)[2].split()
                    if len(body) != 20 or len(set(body)) != 1:
                        wrong.append(body)

            def reloads():
                for state in range(50):
                    site.reload(document(str(state)))

            side_by_side(*[requests] * 3, reloads)
            with self.subTest(name=name):
                self.assertEqual(wrong, [])
            site.close()

    def test_what_is_refused_when_it_is_made(self):
        with Site.open(document("Hello")) as site:
            for fault, words in [
                (TypeError, {}),
                (TypeError, {"tags": TAGS, "site": site}),
                (TypeError, {"tags": TAGS, "path": "site.json"}),
                (TypeError, {"site": site, "path": "site.json"}),
                (FileNotFoundError, {"path": "/there/is/none.json"}),
                (Refused, {"path": __file__}),
                (TypeError, {"tags": TAGS, "message": "title"}),
                (TypeError, {"tags": "en"}),
                (ValueError, {"tags": ["fr"]}),
                (Refused, {"tags": ["en", "e"]}),
                (Refused, {"tags": TAGS, "default": "e n"}),
                (Refused, {"site": site, "default": "e n"}),
                (Refused, {"site": site, "message": "@title"}),
                (Refused, {"site": site, "offer": "e n"}),
                (Refused, {"tags": TAGS, "offer": "e n"}),
                (Refused, {"site": site, "fallbacks": "en"}),
                (Refused, {"tags": TAGS, "fallbacks": "en"}),
                (ValueError, {"tags": TAGS, "offer": "fr"}),
            ]:
                for name, middleware, app, _ in WAYS:
                    with self.subTest(name=name, words=words), self.assertRaises(fault):
                        middleware(app(), **{"default": "en", **words})


class Iterable:
    """A body in parts that tells whether it was closed."""

    def __init__(self, start):
        self.start, self.closed = start, 0

    def __iter__(self):
        self.start("200 OK", [("Content-Type", "text/plain")])
        yield b"a"
        yield b"b"

    def close(self):
        self.closed += 1


class OfWSGI(unittest.TestCase):
    def test_a_body_in_parts_is_closed_once(self):
        made = []

        def app(environ, start_response):
            made.append(Iterable(start_response))
            return made[0]

        _, headers, body = ask_wsgi(WSGILanguageMiddleware(app, **OF_TAGS))
        self.assertEqual((body, made[0].closed), (b"ab", 1))
        self.assertEqual(values(headers, "content-language"), ["en"])

    def test_a_fault_passes(self):
        def app(environ, start_response):
            raise KeyError("of the application")

        with self.assertRaisesRegex(KeyError, "of the application"):
            ask_wsgi(WSGILanguageMiddleware(app, **OF_TAGS))

    def test_a_fault_that_the_application_answers(self):
        passed = []

        def app(environ, start_response):
            try:
                raise KeyError("of the application")
            except KeyError:
                passed.append(sys.exc_info())
                start_response("500 Fault", [("Content-Type", "text/plain")], passed[0])
            return [b"fault"]

        asked, got = WSGILanguageMiddleware(app, **OF_TAGS), []
        asked({}, lambda status, headers, exc_info: got.append((status, exc_info)))
        self.assertEqual(got, [("500 Fault", passed[0])])

    def test_what_is_written(self):
        def app(environ, start_response):
            start_response("200 OK", [("Content-Type", "text/plain")])(b"a")
            return [b"b"]

        written = []
        asked = WSGILanguageMiddleware(app, **OF_TAGS)
        self.assertEqual(asked({}, lambda status, headers: written.append), [b"b"])
        self.assertEqual(written, [b"a"])

    def test_head(self):
        def app(environ, start_response):
            start_response("200 OK", [("Content-Type", "text/plain")])
            return []

        asked = WSGILanguageMiddleware(app, **OF_TAGS)
        _, headers, body = ask_wsgi(asked, [FIELD], REQUEST_METHOD="HEAD")
        self.assertEqual((values(headers, "content-language"), body), (["fr"], b""))

    def test_statuses_without_content(self):
        def app(environ, start_response):
            start_response(environ["wanted"], [])
            return []

        asked = WSGILanguageMiddleware(app, **OF_TAGS)
        for status in ("204 No Content", "304 Not Modified"):
            with self.subTest(status=status):
                _, headers, _ = ask_wsgi(asked, [FIELD], wanted=status)
                self.assertEqual(headers, [("Vary", "Accept-Language")])


class OfASGI(unittest.TestCase):
    def test_lifespan_passes_as_it_is(self):
        passed = []

        async def app(*given):
            passed.append(given)

        given = {"type": "lifespan"}, object(), object()
        asyncio.run(ASGILanguageMiddleware(app, **OF_TAGS)(*given))
        self.assertEqual(len(passed), 1)
        for it, wanted in zip(passed[0], given):
            self.assertIs(it, wanted)
        self.assertEqual(given[0], {"type": "lifespan"})

    def test_a_websocket(self):
        events, told = [{"type": "websocket.accept", "headers": []}], []

        async def app(scope, receive, send):
            told.append(scope[LANGUAGE])
            for event in events:
                await send(event)

        async def send(event):
            sent.append(event)

        asked, sent = ASGILanguageMiddleware(app, **OF_TAGS), []
        scope = {"type": "websocket", "headers": [(b"accept-language", b"fr")]}
        asyncio.run(asked(scope, None, send))
        self.assertEqual((told, sent), (["fr"], events))
        events[:] = [{"type": "websocket.http.response.start", "status": 403, "headers": []}]
        del sent[:]
        asyncio.run(asked(scope, None, send))
        self.assertIn((b"content-language", b"fr"), sent[0]["headers"])

    def test_a_start_without_headers(self):
        async def app(scope, receive, send):
            await send({"type": "http.response.start", "status": 200})
            await send({"type": "http.response.body", "body": b"a", "more_body": True})
            await send({"type": "http.response.body", "body": b"b"})

        _, headers, body = ask_asgi(ASGILanguageMiddleware(app, **OF_TAGS), [FIELD])
        self.assertEqual(headers, [("vary", "Accept-Language"), ("content-language", "fr")])
        self.assertEqual(body, b"ab")

    def test_a_fault_passes(self):
        async def app(scope, receive, send):
            raise KeyError("of the application")

        with self.assertRaisesRegex(KeyError, "of the application"):
            ask_asgi(ASGILanguageMiddleware(app, **OF_TAGS))


def waits_for(is_so):
    """Whether it comes to be so. (The limit is the end of a hang alone.)"""
    until = time.monotonic() + 300
    while not is_so():
        if time.monotonic() > until:
            return False
        time.sleep(0.01)
    return True


@contextlib.contextmanager
def clock():
    """A clock of its own for the file of a site, whose reading everybody waits for."""
    now = mock.Mock(monotonic=lambda: now.seconds, seconds=0.0)
    now.go_on = lambda seconds: setattr(now, "seconds", now.seconds + seconds)
    with mock.patch.object(_site_file, "time", now):
        with mock.patch.object(_site_file, "LONGEST_WAIT", 300):
            yield now


class Files(FileCase):
    """A site whose file is replaced while it is asked."""

    first = document("old")

    def setUp(self):
        super().setUp()
        often = mock.patch.object(_site_file, "LOOK_EVERY", 0.02)
        often.start()
        self.addCleanup(often.stop)

    def text(self, file):
        return file.share().text("greeting", "en")

    def becomes(self, file, text):
        self.assertTrue(waits_for(lambda: self.text(file) == text), text)

    def test_the_middleware(self):
        for name, middleware, app, ask in WAYS:
            self.replace(document("old"))
            asked = middleware(app(text=first_text), path=self.path, default="en")
            with self.subTest(name=name):
                self.assertEqual(ask(asked)[2], b"old")
                self.replace(document("new"))
                self.assertTrue(waits_for(lambda: ask(asked)[2] == b"new"))

    def test_each_way_to_replace_it(self):
        file = SiteFile(self.path)
        for state, change in enumerate([self.replace, self.write, self.replace]):
            change(document(f"state {state}"))
            self.becomes(file, f"state {state}")

    def test_a_file_of_the_same_size_and_time(self):
        file = SiteFile(self.path)
        held = os.stat(self.path)
        self.write(document("new"))
        os.utime(self.path, ns=(held.st_atime_ns, held.st_mtime_ns))
        self.becomes(file, "new")

    def test_a_file_that_is_older(self):
        file = SiteFile(self.path)
        self.replace(document("new"))
        os.utime(self.path, (1, 1))
        self.becomes(file, "new")

    def test_what_is_no_site_leaves_the_state_and_is_tried_again(self):
        file = SiteFile(self.path)
        faults = [
            lambda: self.write(b""),
            lambda: self.write(document("cut")[:-9]),
            lambda: os.unlink(self.path),
            lambda: self.replace_by_link("none"),
            lambda: self.replace_by_link("."),
        ]
        for make in faults:
            self.replace(document("old"))
            self.assertTrue(waits_for(lambda: self.text(file) == "old" and not file._fault))
            with self.assertLogs("silkwaram", "WARNING") as logged:
                make()
                self.assertTrue(waits_for(lambda: self.text(file) == "old" and logged.records))
                with mock.patch.object(file, "_read", wraps=file._read) as reads:
                    texts = []
                    is_read = lambda: texts.append(self.text(file)) or reads.call_count > 5
                    self.assertTrue(waits_for(is_read))
                self.assertEqual(set(texts), {"old"})
            self.assertEqual(len(logged.records), 1, logged.output)
            self.assertIn(self.path, logged.output[0])
        self.replace(document("new"))
        self.becomes(file, "new")
        with self.assertLogs("silkwaram", "WARNING"):
            os.unlink(self.path)
            self.assertTrue(waits_for(lambda: self.text(file) == "new" and file._fault))

    def test_a_fault_that_passes_while_the_file_stays(self):
        file = SiteFile(self.path)
        opens = mock.Mock(side_effect=[MemoryError(), Site.open(document("new"))])
        with mock.patch.object(_site_file, "Site", mock.Mock(open=opens)):
            self.replace(document("new"))
            with self.assertLogs("silkwaram", "WARNING"):
                self.becomes(file, "new")

    def test_the_first_to_ask_has_the_new_state(self):
        with mock.patch.object(_site_file, "LONGEST_WAIT", 300):
            file = SiteFile(self.path)
            for state in range(5):
                self.replace(document(f"state {state}"))
                self.assertTrue(waits_for(lambda: time.monotonic() >= file._next_look))
                self.assertEqual(self.text(file), f"state {state}")

    def test_nobody_waits_for_the_reading(self):
        file, goes_on = SiteFile(self.path), threading.Event()
        self.addCleanup(goes_on.set)
        opens = mock.Mock(side_effect=lambda it: goes_on.wait(120) and Site.open(it))
        with mock.patch.object(_site_file, "Site", mock.Mock(open=opens)):
            self.replace(document("new"))
            self.assertTrue(waits_for(lambda: self.text(file) and opens.called))
            # (who waited for it would wait until the text is another)
            self.assertEqual([self.text(file) for _ in range(100)], ["old"] * 100)
            self.assertEqual(opens.call_count, 1)
            self.assertTrue(file._lock.locked())
            goes_on.set()
            self.becomes(file, "new")

    def test_it_is_looked_at_once_in_a_while(self):
        with clock() as now, mock.patch.object(_site_file, "LOOK_EVERY", 0.3):
            file = SiteFile(self.path)
            with mock.patch.object(file, "_read", wraps=file._read) as reads:
                self.ask_for_a_second(file, now)
                self.assertEqual(reads.call_count, 3)

    def test_a_file_that_takes_long_is_looked_at_less_often(self):
        with clock() as now:
            file = SiteFile(self.path)
            with mock.patch.object(file, "_read", side_effect=lambda: now.go_on(0.2)) as reads:
                self.ask_for_a_second(file, now)
                self.assertEqual(reads.call_count, 1)
                self.ask_for_a_second(file, now)
                self.ask_for_a_second(file, now)
                self.assertEqual(reads.call_count, 2)

    def ask_for_a_second(self, file, now):
        for _ in range(100):
            now.go_on(0.01)
            self.text(file)

    def test_where_no_thread_can_be_had(self):
        file = SiteFile(self.path)
        self.replace(document("new"))
        none = RuntimeError("can't start new thread")
        with mock.patch.object(threading.Thread, "start", side_effect=none):
            self.becomes(file, "new")
            self.replace(document("newer"))
            self.becomes(file, "newer")

    @unittest.skipUnless(hasattr(os, "fork"), "there is no fork")
    def test_a_child(self):
        file = SiteFile(self.path)
        file._lock.acquire()
        child = os.fork()
        if child == 0:
            self.replace(document("new"))
            os._exit(0 if waits_for(lambda: self.text(file) == "new") else 1)
        self.assertEqual(os.waitpid(child, 0)[1], 0)

    def test_states_are_whole(self):
        file, wrong, ends = SiteFile(self.path), [], threading.Event()

        def ask():
            while not ends.is_set():
                site = file.share()
                texts = {site.text("greeting", "en") for _ in range(20)}
                if len(texts) != 1:
                    wrong.append(texts)

        def changes():
            for state in range(50):
                (self.replace if state % 2 else self.write)(document(str(state)))
                time.sleep(0.01)
            ends.set()

        with mock.patch.object(_site_file, "_log"):
            side_by_side(*[ask] * 3, changes)
            self.assertEqual(wrong, [])
            self.becomes(file, "49")


class Imports(unittest.TestCase):
    def test_no_framework_is_imported(self):
        program = (
            "import sys, silkwaram, silkwaram.web\n"
            "print([it for it in ('django', 'flask', 'starlette', 'asgiref') if it in sys.modules])"
        )
        ran = run_python(program)
        self.assertEqual((ran.returncode, ran.stdout), (0, "[]\n"))


if __name__ == "__main__":
    unittest.main()
