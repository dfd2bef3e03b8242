#!/usr/bin/env python3
"""Asks the web server of examples/front as some readers do, and compares what it answers.

usage: server.py SITE.json
"""
import os
import shutil
import subprocess
import sys
import tempfile
import time

sys.dont_write_bytecode = True
HERE = os.path.dirname(os.path.realpath(__file__))
sys.path.append(f"{HERE}/../../bindings/python/tests/web")
from served import MOST_SECONDS, Server  # noqa: E402

SERVER = os.path.join(HERE, "../../examples/front/server.py")
READERS = [
    ("fr-CA,fr;q=0.9,en;q=0.8", "fr-ca", '<h1 lang="fr-ca" dir="auto">Le Catalogue quotidien</h1>'),
    ("ar,en;q=0.9", "ar", '<p lang="ar" dir="auto">صباح الخير</p>'),
    ("de-CH, fr;q=0.5", "de", '<p lang="de-ch" dir="auto">Grüezi</p>'),
    ("ja, en;q=0.5", "ja", '<p lang="en" dir="auto">Imprint</p>'),
    ("en_US, fr", "fr", '<p lang="fr" dir="auto">Bonjour</p>'),
    ("en_US", "en", '<p lang="en" dir="auto">Good morning</p>'),
    ("*;q=0", "en", '<p lang="en" dir="auto">Good morning</p>'),
    ("", "en", '<p lang="en" dir="auto">Good morning</p>'),
    (None, "en", '<p lang="en" dir="auto">Rain until Thursday.</p>'),
]
# Paths that have no page.
WITHOUT = ["/favicon.ico", "/title"]


def has(server, line, *fields):
    return line in server.ask(*fields).body.split("\n")


def write(path, text):
    """Puts a new file in place of the old one, at once."""
    with open(f"{path}.next", "w", encoding="utf-8") as it:
        it.write(text)
    os.replace(f"{path}.next", path)


def faults_of_readers(server):
    for field, language, line in READERS:
        got = server.ask(*([] if field is None else [field]))
        if (got.status, got.headers.get("Content-Language")) != (200, language):
            yield f"{field}: {got}"
        elif line not in got.body.split("\n") or got.headers.get("Vary") != "Accept-Language":
            yield f"{field}: {got}"
        elif len(got.body.encode()) != int(got.headers["Content-Length"]):
            yield f"{field}: length: {got}"
    if not has(server, '<p lang="de-ch" dir="auto">Grüezi</p>', "fr;q=0.5", "de-CH"):
        yield "two headers are not one field"
    if server.ask("fr", path="/?a=/b").status != 200:
        yield "a query is no part of the path"


def faults_without_page(server):
    for path in WITHOUT:
        for method in ("GET", "HEAD"):
            got = server.ask("fr", path=path, method=method)
            if (got.status, got.headers.get("Vary")) != (404, "Accept-Language"):
                yield f"{method} {path}: {got}"
            if (got.body == "") != (method == "HEAD"):
                yield f"{method} {path}: body: {got}"


def faults_of_head(server):
    same = ("Content-Type", "Content-Length", "Content-Language", "Vary")
    get, head = server.ask("ar"), server.ask("ar", method="HEAD")
    if (head.status, head.body) != (200, ""):
        yield f"HEAD: {head}"
    for name in same:
        if head.headers.get(name, "none") != get.headers.get(name):
            yield f"HEAD: {name}: {head}"


def faults_of_new_states(server, path, text):
    good_evening = '<p lang="en" dir="auto">Good evening</p>'
    write(path, text.replace("Good morning", "Good evening"))
    until = time.monotonic() + MOST_SECONDS
    while not has(server, good_evening, "en"):
        if time.monotonic() > until:
            yield "a new state is not read"
            return
        time.sleep(0.05)
    write(path, "no document")
    # (longer than the middleware waits before it looks again)
    time.sleep(1.2)
    if not has(server, good_evening, "en"):
        yield "the old state did not stay"
    os.remove(path)
    time.sleep(1.2)
    if not has(server, good_evening, "en"):
        yield "the old state did not stay without its file"


def faults_of(server, path):
    with open(path, encoding="utf-8") as it:
        text = it.read()
    yield from faults_of_readers(server)
    yield from faults_without_page(server)
    yield from faults_of_head(server)
    yield from faults_of_new_states(server, path, text)


def main(path):
    with tempfile.TemporaryDirectory() as room:
        held = shutil.copy(path, f"{room}/site.json")
        words = [sys.executable, SERVER, held, "0"]
        with subprocess.Popen(
            words, stdout=subprocess.PIPE, stderr=subprocess.DEVNULL, text=True
        ) as started:
            try:
                address = started.stdout.readline().strip()
                faults = list(faults_of(Server(address), held)) if address else ["does not start"]
            finally:
                started.terminate()
    for fault in faults:
        print(f"server: {fault[:500]}")
    print(f"server: {len(READERS)} readers, {len(WITHOUT)} without a page, HEAD, and new states")
    return 1 if faults else 0


if __name__ == "__main__":
    sys.exit(main(sys.argv[1]))
