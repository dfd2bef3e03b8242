#!/usr/bin/env python3
"""Asks the examples of the package's page, as they are there, and without a server between.

usage: readme.py flask|starlette

A reader gets an answer of status 200, whatever their header has.
"""
import asyncio
import io
import os
import re
import sys
import tempfile

import fields
from serve import document

PAGE = os.path.join(os.path.dirname(os.path.realpath(__file__)), "../../README.md")
EXAMPLES = {"flask": "from flask import", "starlette": "from starlette.applications import"}
GENERATED = 5000
GREETINGS = {"en": "Hello", "fr": "Bonjour"}
# What some readers send, and their language among en and fr, with en as default.
READERS = [
    (None, "en"),
    ("", "en"),
    ("*", "en"),
    ("fr-CA, en;q=0.5", "fr"),
    ("en;q=0.5, fr", "fr"),
    ("en_US, fr", "fr"),
    ("ja", "en"),
    ("*;q=0", "en"),
    ("ja, en;q=0", "en"),
    ("fr, *;q=0", "fr"),
    ("fr" + "," * 65533, "fr"),
    ("fr" + "," * 65534, "en"),
]


def example(kind):
    """The lines of an example."""
    with open(PAGE, encoding="utf-8") as page:
        blocks = re.findall(r"^```python\n(.*?)^```$", page.read(), re.M | re.S)
    [found] = [it for it in blocks if EXAMPLES[kind] in it]
    return found


def ask_wsgi(app, field):
    environ = {
        "REQUEST_METHOD": "GET",
        "PATH_INFO": "/",
        "SERVER_NAME": "localhost",
        "SERVER_PORT": "80",
        "wsgi.url_scheme": "http",
        "wsgi.input": io.BytesIO(),
        "wsgi.errors": io.StringIO(),
    }
    if field is not None:
        environ["HTTP_ACCEPT_LANGUAGE"] = field
    begun = []
    body = b"".join(app(environ, lambda status, headers, _=None: begun.append((status, headers))))
    [(status, headers)] = begun
    return int(status[:3]), dict(headers).get("Content-Language"), body.decode()


def ask_asgi(app, field):
    headers = [] if field is None else [(b"accept-language", field.encode("latin-1"))]
    scope = {
        "type": "http",
        "http_version": "1.1",
        "method": "GET",
        "path": "/",
        "raw_path": b"/",
        "query_string": b"",
        "headers": headers,
    }
    sent = []

    async def receive():
        return {"type": "http.request", "body": b"", "more_body": False}

    async def send(event):
        sent.append(event)

    asyncio.run(app(scope, receive, send))
    language = dict(sent[0]["headers"]).get(b"content-language", b"").decode()
    return sent[0]["status"], language, b"".join(it["body"] for it in sent[1:]).decode()


def answers(kind):
    """A function that asks the example."""
    held = {"__name__": "example"}
    exec(compile(example(kind), PAGE, "exec"), held)
    ask = ask_wsgi if kind == "flask" else ask_asgi

    def answer(field):
        try:
            return ask(held["app"], field)
        except Exception as fault:  # which a server answers with 500
            return 500, None, repr(fault)

    return answer


def faults(answer):
    for field, language in READERS:
        got = answer(field)
        if got != (200, language, GREETINGS[language]):
            yield f"{str(field)[:60]!r}: {got}, not {language}"
    right = [(200, language, text) for language, text in GREETINGS.items()]
    seen = {}
    for field in [*fields.BROWSERS, *fields.HOSTILE, *fields.generated(GENERATED)]:
        got = seen[field] = answer(field)
        if got not in right:
            yield f"{str(field)[:60]!r}: {got}"
    if set(seen.values()) != set(right):
        yield f"only these answers are seen: {set(seen.values())}"


def main(kind):
    with tempfile.TemporaryDirectory() as folder:
        os.chdir(folder)
        with open("site.json", "w", encoding="utf-8") as file:
            file.write(document(GREETINGS))
        found = list(faults(answers(kind)))
        os.chdir("/")
    for fault in found[:20]:
        print(f"readme_{kind}: {fault}")
    return 1 if found else 0


if __name__ == "__main__":
    sys.exit(main(sys.argv[1]))
