"""The editor's server as an application of WSGI, asked without a browser: who may do what, in a
prefix, and what is logged. editor/*.t ask it by browsers."""
import contextlib
import http.client
import io
import json
import os
import pathlib
import threading
import time
import unittest
from unittest import mock
from wsgiref.util import setup_testing_defaults
from wsgiref.validate import validator

from cases import FileCase, document
from silkwaram import Site
from silkwaram.editor import Application, EditorServer
from silkwaram.editor._people import KeyFault, People

KEYS = """\
# who edits
anna Xk20fjw9s8: fr de
boss 83jd0qkslw: *

print k20dkcme7: read
"""
KEY_OF = {"anna": "Xk20fjw9s8", "boss": "83jd0qkslw", "print": "k20dkcme7"}


def delta_of(*cells):
    """A delta of these cells, each an id, a language and texts."""
    now = int(time.time() * 1000)
    rows = sorted([id, lang, now, "anna", 0, texts] for id, lang, texts in cells)
    return json.dumps({"cells": rows, "kind": "delta", "to": "paris", "version": 2}).encode()


class ServerCase(FileCase):
    """A site in a file, a file of keys, and a module for the page, which nobody runs here."""

    first = Site.open(document(("title", "en", ["Title"]))).to_bytes()

    def setUp(self):
        super().setUp()
        self.keys = os.path.join(self.folder, "keys")
        self.write_keys(KEYS)
        for name in ("silkwaram.mjs", "silkwaram.wasm"):
            pathlib.Path(self.folder, name).write_bytes(b"module")
        of_page = mock.patch.dict(os.environ, {"SILKWARAM_BROWSER": self.folder})
        of_page.start()
        self.addCleanup(of_page.stop)

    def write_keys(self, text):
        """Puts a file of keys in place of the one before."""
        pathlib.Path(f"{self.keys}.new").write_text(text, encoding="utf-8")
        os.replace(f"{self.keys}.new", self.keys)

    def ask(self, app, method, path, body=None, key=None, **more):
        """The status, the headers and the body that an application answers; it is seen to be right by
        PEP 3333."""
        environ = {"REQUEST_METHOD": method, "SCRIPT_NAME": "", "PATH_INFO": path, "QUERY_STRING": ""}
        setup_testing_defaults(environ)
        if key:
            environ["HTTP_AUTHORIZATION"] = f"Bearer {KEY_OF.get(key, key)}"
        if body is not None:
            environ.update({"CONTENT_TYPE": "application/json", "CONTENT_LENGTH": str(len(body))})
            environ["wsgi.input"] = io.BytesIO(body)
        environ.update(more)
        told = []
        made = validator(app)(environ, lambda *heads: told.append(heads[:2]) or (lambda _: None))
        with contextlib.closing(made):
            content = b"".join(made)
        status, heads = told[0]
        return int(status.split()[0]), dict(heads), content

    def labels(self):
        """The labels of the file."""
        with Site.open(pathlib.Path(self.path).read_bytes()) as site:
            return site.export()


class Keys(ServerCase):
    """A key for each person, with the languages that they edit."""

    def application(self):
        """The application with a file of keys."""
        return Application(self.path, tokens=self.keys)

    def test_each_edits_their_languages(self):
        app = self.application()
        french = delta_of(("title", "fr", ["Titre"]))
        english = delta_of(("title", "en", ["Heading"]))
        for who, delta, wanted in (
            ("anna", french, 200),
            ("anna", delta_of(("title", "fr-CA", ["Titre"])), 200),
            ("anna", english, 403),
            ("anna", delta_of(("title", "fr", ["Titre"]), ("title", "frr", ["Titel"])), 403),
            ("print", french, 403),
            ("boss", english, 200),
            ("nobody12", french, 401),
            (None, french, 401),
        ):
            with self.subTest(who=who, delta=delta):
                self.assertEqual(self.ask(app, "POST", "/delta", delta, who)[0], wanted)
        self.assertEqual(
            self.labels(), {"title": {"en": "Heading", "fr": "Titre", "fr-ca": "Titre"}}
        )

    def test_a_refusal_names_the_row_the_message_and_the_person(self):
        delta = delta_of(("news", "fr", ["Actualités"]), ("title", "en", ["Heading"]))
        status, heads, said = self.ask(self.application(), "POST", "/delta", delta, "anna")
        self.assertEqual((status, heads["Silkwaram-Exchange"]), (403, "1"))
        words = 'row 1, message "title" in en: anna edits fr de'
        self.assertEqual(json.loads(said), {"words": words, "row": 1})
        self.assertEqual(self.labels(), {"title": {"en": "Title"}})

    def test_who_only_reads_gets_all(self):
        app = self.application()
        self.assertEqual(self.ask(app, "GET", "/summary", key="print")[0], 200)
        of_nobody = {"kind": "summary", "owner": "anna", "stamps": [], "version": 2}
        summary = json.dumps(of_nobody).encode()
        status, _, said = self.ask(app, "POST", "/summary", summary, "print")
        self.assertEqual(status, 200, said)
        self.assertEqual(len(json.loads(said)["cells"]), 1)

    def test_a_po_file_wants_its_language(self):
        app = self.application()
        about = {"QUERY_STRING": "lang=en&source=fr", "CONTENT_TYPE": "text/x-gettext-translation"}
        self.assertEqual(self.ask(app, "POST", "/po", b"", "anna", **about)[0], 403)

    def test_a_changed_file_of_keys_is_read_anew(self):
        app = self.application()
        self.assertEqual(self.ask(app, "GET", "/summary", key="anna")[0], 200)
        for text, wanted in (
            ("boss 83jd0qkslw: *\n", 401),
            ("boss 83jd0qkslw: *\nanna Xk20fjw9s8 fr\n", 500),
            (KEYS, 200),
        ):
            self.write_keys(text)
            with contextlib.redirect_stderr(io.StringIO()) as said:
                self.assertEqual(self.ask(app, "GET", "/summary", key="anna")[0], wanted)
            self.assertEqual("line 2" in said.getvalue(), wanted == 500)

    def test_faults_of_a_file_of_keys(self):
        for text, words in (
            ("", "no line of a person"),
            ("anna: fr\n", "line 1"),
            ("\nanna short: fr\n", "line 2"),
            ("anna Xk20fjw9s8: fr_FR\n", "fr_FR is no language"),
            ("anna Xk20fjw9s8: *\nben Xk20fjw9s8: *\n", "line 2: this key is another"),
        ):
            self.write_keys(text)
            with self.subTest(text=text), self.assertRaises(KeyFault) as found:
                People(self.keys)
            self.assertIn(words, str(found.exception))

    def test_nobody_may_ask_without_key_or_name(self):
        with self.assertRaises(ValueError):
            Application(self.path)
        with self.assertRaises(ValueError):
            Application(self.path, token="short")
        with self.assertRaises(ValueError):
            Application(self.path, token="long12345", tokens=self.keys)


class Serving(ServerCase):
    """Health, a prefix, and what is logged."""

    def test_health_needs_no_key_and_no_name(self):
        app = Application(self.path, token="secret12345")
        status, _, said = self.ask(app, "GET", "/healthz")
        self.assertEqual((status, json.loads(said)["status"]), (200, "ok"))
        self.write(b"{}")
        with contextlib.redirect_stderr(io.StringIO()):
            self.assertEqual(self.ask(app, "GET", "/healthz")[0], 503)

    def test_a_prefix_without_a_slash_leads_to_the_page(self):
        app = Application(self.path, token="secret12345")
        status, heads, _ = self.ask(app, "GET", "", SCRIPT_NAME="/labels")
        self.assertEqual((status, heads["Location"]), (308, "/labels/"))
        status, heads, page = self.ask(app, "GET", "/", SCRIPT_NAME="/labels")
        self.assertEqual((status, heads["Content-Type"]), (200, "text/html; charset=utf-8"))
        self.assertNotIn(b'="/', page)

    def test_other_methods_are_refused(self):
        app = Application(self.path, token="secret12345")
        status, heads, _ = self.ask(app, "DELETE", "/summary")
        self.assertEqual((status, heads["Allow"]), (405, "GET, HEAD, POST"))

    def test_a_delta_is_in_the_log_of_the_site(self):
        app = Application(self.path, tokens=self.keys)
        self.ask(app, "POST", "/delta", delta_of(("title", "fr", ["Titre"])), "anna")
        with open(f"{self.path}.changes", encoding="utf-8") as file:
            exchange, line = map(json.loads, file)
        self.assertEqual(exchange[1:], ["the editor of anna", []])
        self.assertEqual(line[1:5], ["the editor of anna", "title", "fr", None])
        self.assertEqual(line[5][3], ["Titre"])

    def test_a_site_that_was_put_back_takes_nothing(self):
        cell = [int(time.time() * 1000), "paris", 9, ["New"]]
        line = json.dumps(["2026-01-01T00:00:00Z", "BY", "new", "en", None, cell])
        pathlib.Path(f"{self.path}.changes").write_text(f"{line}\n", encoding="utf-8")
        app = Application(self.path, tokens=self.keys)
        with contextlib.redirect_stderr(io.StringIO()):
            status, _, said = self.ask(
                app, "POST", "/delta", delta_of(("title", "fr", ["Titre"])), "anna"
            )
        self.assertEqual(status, 500)
        self.assertIn("put back to an older copy", json.loads(said)["words"])
        self.assertEqual(pathlib.Path(self.path).read_bytes(), self.first)

    def test_the_access_log_has_a_line_for_each_request(self):
        log = io.StringIO()
        server = EditorServer(self.path, port=0, tokens=self.keys, access_log=log)
        thread = threading.Thread(target=server.serve_forever)
        thread.start()
        try:
            connection = http.client.HTTPConnection("localhost", server.server_port, timeout=20)
            for key in ("anna", "nobody12"):
                heads = {"Authorization": f"Bearer {KEY_OF.get(key, key)}"}
                connection.request("GET", "/summary", headers=heads)
                connection.getresponse().read()
            connection.close()
        finally:
            server.shutdown()
            thread.join()
            server.server_close()
        first, second = log.getvalue().splitlines()
        self.assertRegex(first, r'^\S+ - anna \[.*\] "GET /summary HTTP/1\.1" 200 \d+$')
        self.assertRegex(second, r'^\S+ - - \[.*\] "GET /summary HTTP/1\.1" 401 \d+$')


if __name__ == "__main__":
    unittest.main()
