#!/usr/bin/env python3
"""Asks an application that serve.py serves as some readers do, and compares what it answers.

usage: ask.py KIND
"""
import os
import subprocess
import sys
import tempfile
import time

from serve import document
from served import Server

SERVE = os.path.join(os.path.dirname(os.path.realpath(__file__)), "serve.py")
# (the end of a hang alone)
MOST_SECONDS = 300
# What the package logs where a file is no site.
WARNING = "is not read anew, and the site stays"
GREETINGS = {"de": "Hallo", "en": "Hello", "fr": "Bonjour"}
# What a reader sends, in header lines, and the language among en, fr and de, with en as default.
READERS = [
    ([], "en"),
    (["*"], "en"),
    ([""], "en"),
    (["fr-CA, en;q=0.5"], "fr"),
    (["da, en-GB;q=0.8, en;q=0.7"], "en"),
    (["de-CH, fr;q=0.5"], "de"),
    (["fr;q=0.5", "de"], "de"),
    (["en_US, fr;q=0.5"], "fr"),
    (["\xe9, fr;q=0.5"], "fr"),
    (["ja"], "en"),
]
# What only Django is asked. It has pt-br and zh-hans too, which its fallbacks find.
OF_DJANGO = [
    (["pt"], "pt-br"),
    (["pt-PT"], "pt-br"),
    (["pt-BR"], "pt-br"),
    (["zh-CN, fr;q=0.5"], "zh-hans"),
    (["zh-TW, fr;q=0.5"], "zh-hans"),
    (["zh-Hant-HK"], "zh-hans"),
]
REFUSES_ALL = ["*;q=0", "ja, *;q=0", "ja, en;q=0"]


def differs(what, got, status, body, language, vary="Accept-Language"):
    """Yields what is not as wanted; a body or a language of None is not compared, or not there."""
    wanted = [status, [] if language is None else [language], [vary]]
    has = [got.status, got.headers.get_all("Content-Language", []), got.headers.get_all("Vary", [])]
    if has != wanted or (body is not None and got.body != body):
        yield f"{what}: {has} {got.body[:200]!r}, not {wanted} {body!r}"


def faults_of_pages(server):
    for fields, language in READERS:
        yield from differs(fields, server.ask(*fields), 200, language, language)
        got = server.ask(*fields, path="/label")
        yield from differs(f"label {fields}", got, 200, GREETINGS[language], language)
    got = server.ask("fr", path="/stream")
    yield from differs("stream", got, 200, "part of fr", "fr")
    got = server.ask("fr", path="/vary")
    yield from differs("vary", got, 200, "fr", "fr", "Cookie, Accept-Language")
    yield from differs("HEAD", server.ask("fr", method="HEAD"), 200, "", "fr")
    yield from differs("404", server.ask("fr", path="/missing"), 404, None, "fr")


def faults_of_exceptions(server, kind):
    """A fault of the application is its server's to answer, and the next request is answered."""
    got = server.ask("fr", path="/fault")
    if got.status != 500:
        yield f"fault: {got}"
    if kind == "flask" or kind.startswith("django"):
        # (these answer it inside of the middleware)
        yield from differs("fault", got, 500, None, "fr")
    yield from differs("after a fault", server.ask("de"), 200, "de", "de")


def faults_of_refusals(server):
    """A reader who refuses the default too gets it nevertheless."""
    for field in REFUSES_ALL:
        yield from differs(field, server.ask(field), 200, "en", "en")
        yield from differs(field, server.ask(field, path="/label"), 200, "Hello", "en")


def faults_of_files(server, path, log):
    """A file that is replaced is read anew, and what is no site leaves the state as it was, which the
    server says in its log."""

    def replace(text):
        with open(path + ".next", "w", encoding="utf-8") as file:
            file.write(text)
        os.replace(path + ".next", path)

    def answers(text):
        return server.ask("fr", path="/label").body == text

    def comes(is_so):
        until = time.monotonic() + MOST_SECONDS
        while not is_so():
            if time.monotonic() > until:
                return False
            time.sleep(0.05)
        return True

    replace(document({**GREETINGS, "fr": "Salut"}))
    if not comes(lambda: answers("Salut")):
        yield "a file that is replaced is not read anew"
        return
    for count, make in enumerate([lambda: replace(document(GREETINGS)[:-9]), lambda: os.unlink(path)]):
        make()
        # (once it is said, the file was looked at)
        asked = []
        if not comes(lambda: asked.append(answers("Salut")) or said(log).count(WARNING) > count):
            yield "of what is no site nothing is said"
        if not all([*asked, answers("Salut")]):
            yield "what is no site does not leave the state as it was"
            return
    replace(document(GREETINGS))
    if not comes(lambda: answers("Bonjour")):
        yield "after a fault the file is not tried again"


def faults_of_django(server):
    for fields, language in OF_DJANGO:
        yield from differs(fields, server.ask(*fields), 200, language, language)
    got = server.ask("fr", cookie="django_language=de")
    yield from differs("a cookie", got, 200, "de", "de")
    got = server.ask("fr", path="/de/news/")
    if (got.status, got.body, got.headers["Content-Language"]) != (200, "de", "de"):
        yield f"a prefix: {got}"
    got = server.ask("fr", path="/news/")
    if (got.status, got.headers["Location"]) != (302, "/fr/news/"):
        yield f"without a prefix: {got}"
    yield from differs("no language", server.ask("fr", path="/xx/news/"), 404, None, "fr")


def faults_of(server, kind, path, log):
    yield from faults_of_pages(server)
    yield from faults_of_exceptions(server, kind)
    yield from faults_of_refusals(server)
    if kind.startswith("django"):
        yield from faults_of_django(server)
    yield from faults_of_files(server, path, log)


def said(log):
    with open(log, encoding="utf-8", errors="replace") as file:
        return file.read()


def served(kind, path, log):
    """The faults of a server, which says in a file what goes to its standard error."""
    with open(path, "w", encoding="utf-8") as file:
        file.write(document(GREETINGS))
    with open(log, "w", encoding="utf-8") as errors, subprocess.Popen(
        [sys.executable, SERVE, kind, path], stdout=subprocess.PIPE, stderr=errors, text=True
    ) as started:
        try:
            address = started.stdout.readline().strip()
            server = Server(address)
            faults = list(faults_of(server, kind, path, log)) if address else ["does not start"]
        finally:
            started.terminate()
    return faults


def main(kind):
    with tempfile.TemporaryDirectory() as folder:
        log = os.path.join(folder, "said")
        faults = served(kind, os.path.join(folder, "site.json"), log)
        if faults:
            print(said(log)[-2000:])
    for fault in faults:
        print(f"{kind}: {fault[:500]}")
    return 1 if faults else 0


if __name__ == "__main__":
    sys.exit(main(sys.argv[1]))
