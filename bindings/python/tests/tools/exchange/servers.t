#!/usr/bin/env python3
"""Has lexicat-exchange ask servers that lie, that are cut off, and that never end: it ends with a status
other than 0, says why, leaves the site as it was and nothing beside it.

It takes what built.py says.
"""
import contextlib
import gzip
import http.server
import json
import os
import resource
import subprocess
import sys
import tempfile
import threading

sys.dont_write_bytecode = True
sys.path.insert(0, os.path.dirname(os.path.dirname(os.path.realpath(__file__))))
from built import program, tap  # noqa: E402

SUMMARY = {"kind": "summary", "owner": "server", "stamps": [], "version": 2}
DELTA = {"cells": [], "kind": "delta", "to": "paris", "version": 2}
REFUSED, NOBODY = 3, 8
MEGABYTE = 1 << 20
# The most memory that a run takes, in MB: a document of the largest size some times.
MOST_MEMORY = 900


def as_json(value):
    return json.dumps(value, separators=(",", ":")).encode() + b"\n"


class Server(http.server.BaseHTTPRequestHandler):
    """Answers as `way` says: what it sends for a summary, and what for a delta."""

    way = {}
    posted = b""

    def do_GET(self):
        self.answer("summary")

    def do_POST(self):
        body = self.rfile.read(int(self.headers["Content-Length"]))
        if self.path.endswith("/summary"):
            Server.posted = body
        self.answer("delta" if self.path.endswith("/summary") else "taken")

    def answer(self, what):
        status, heads, parts = self.way.get(what, (200, {}, [b"{}\n"]))
        self.send_response(status)
        for name, value in {"Silkwaram-Exchange": "1", **heads}.items():
            if value is not None:
                self.send_header(name, value)
        self.end_headers()
        with contextlib.suppress(OSError):
            for it in parts() if callable(parts) else parts:
                self.wfile.write(it)
        self.close_connection = True

    def log_message(self, *_):
        """Says nothing."""


def endless():
    """A body without an end."""
    while True:
        yield b"x" * MEGABYTE


def bomb():
    """Some kilobytes that unpack to 256 MB."""
    packed = gzip.compress(b" " * (256 * MEGABYTE), 9)
    return [packed]


GOOD = {"summary": (200, {}, [as_json(SUMMARY)]), "delta": (200, {}, [as_json(DELTA)])}
GZIP = {"Content-Encoding": "gzip"}
LATE = {**DELTA, "cells": [["hi", "fr", 4102444800000, "server", 0, ["Salut"]]]}
FOREIGN = {**DELTA, "to": "tokyo"}
OWN = {**DELTA, "cells": [["hi", "fr", 5, "paris", 7, ["Salut"]]]}
# Of each server what it answers otherwise, the status, and a part of what is said.
SERVERS = {
    "a page of a network": (
        {"summary": (200, {"Silkwaram-Exchange": None}, [b"<html>"])}, NOBODY,
        "a server that does not exchange",
    ),
    "a summary that is garbage": ({"summary": (200, {}, [b"garbage"])}, REFUSED, "refused"),
    "a summary that is empty": ({"summary": (200, {}, [b""])}, REFUSED, "refused"),
    "a summary that is a site": (
        {"summary": (200, {}, [as_json({"cells": [], "kind": "site", "site": "x", "version": 2})])},
        REFUSED, "refused 20",
    ),
    "a summary that is cut off": (
        {"summary": (200, {"Content-Length": "999"}, [as_json(SUMMARY)])}, NOBODY, "no answer",
    ),
    "a summary without an end": ({"summary": (200, {}, endless)}, NOBODY, "longer than"),
    "a summary that is packed and cut off": (
        {"summary": (200, GZIP, [gzip.compress(as_json(SUMMARY))[:-9]])}, NOBODY, "cut",
    ),
    "a summary that unpacks to too much": ({"summary": (200, GZIP, bomb)}, NOBODY, "longer than"),
    "a delta that is garbage": ({"delta": (200, {}, [b'{"cells":1}'])}, REFUSED, "refused"),
    "a delta for another site": ({"delta": (200, {}, [as_json(FOREIGN)])}, REFUSED, "refused 15"),
    "a delta of the far future": ({"delta": (200, {}, [as_json(LATE)])}, REFUSED, "refused 29"),
    "a delta with an edit of this site": ({"delta": (200, {}, [as_json(OWN)])}, REFUSED, "refused 30"),
    "a server that is broken": (
        {"summary": (500, {}, [as_json({"words": "\x1b[31mred\nlines"})])}, REFUSED, "status 500",
    ),
    "a server that leads elsewhere": (
        {"summary": (302, {"Location": "http://127.0.0.1:1/"}, [b""])}, REFUSED, "status 302",
    ),
}


def run(words, folder):
    """Runs a program of the package, and returns its status, its output and what it said."""
    done = subprocess.run(
        program(*words), cwd=folder, capture_output=True, stdin=subprocess.DEVNULL, timeout=300
    )
    return done.returncode, done.stdout, done.stderr.decode("utf-8", "replace")


def exchange_with(address, folder, way, status, words):
    """The faults of an exchange with a server."""
    Server.way = {**GOOD, **way}
    for name in os.listdir(folder):
        os.unlink(f"{folder}/{name}")
    site = f"{folder}/paris.json"
    run(["file", "paris.json", "new", "--site", "paris"], folder)
    run(["file", "paris.json", "put", "--id", "hi", "--lang", "en", "Hello"], folder)
    with open(site, "rb") as file:
        before = file.read()
    found, output, said = run(["exchange", address, "paris.json"], folder)
    faults = []
    if found != status or words not in said:
        faults.append(f"it ends with {found}, not {status}: {said[-600:]}")
    if output:
        faults.append(f"it prints {output[:200]}")
    if "\x1b" in said:
        faults.append("what the server says reaches the terminal as it is")
    with open(site, "rb") as file:
        if file.read() != before:
            faults.append("the site is another one")
    beside = set(os.listdir(folder)) - {"paris.json", "paris.json.lock", "paris.json.changes"}
    return faults + [f"there is {it} beside the site" for it in sorted(beside)]


with http.server.ThreadingHTTPServer(("127.0.0.1", 0), Server) as server:
    server.daemon_threads = True
    threading.Thread(target=server.serve_forever, daemon=True).start()
    place = f"http://127.0.0.1:{server.server_port}/"
    with tempfile.TemporaryDirectory() as room:
        for title, (its_way, its_status, its_words) in SERVERS.items():
            tap.check(title, exchange_with, place, room, its_way, its_status, its_words)
        Server.way = GOOD
        tap.report(
            "a server that is right",
            [] if run(["exchange", place, "paris.json"], room)[0] == 0 else ["refused"],
        )
        tap.report(
            "it is asked by digests of labels",
            [] if json.loads(Server.posted).get("labels") else [Server.posted.decode()],
        )
    server.shutdown()
peak = resource.getrusage(resource.RUSAGE_CHILDREN).ru_maxrss // 1024
tap.report("the memory of each", [] if peak < MOST_MEMORY else [f"{peak} MB"], f"{peak} MB")
tap.end()
