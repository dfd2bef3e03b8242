#!/usr/bin/env python3
"""A small web server that answers in the reader's language, over a site document.

usage: server.py SITE.json [PORT]

It has one page, `/`; any other path is 404. The middleware of `silkwaram.web` finds the labels of
each reader, sends `Content-Language` and `Vary`, and reads the document anew when another file was
put in its place.
"""
import html
import socketserver
import sys
from wsgiref.simple_server import WSGIServer, make_server

from silkwaram import Refused
from silkwaram.web import LABEL, LANGUAGE, WSGILanguageMiddleware

PAGE = """<!DOCTYPE html>
<html lang="{language}">
<meta charset="utf-8">
<title>{title}</title>
<style>
body {{ font: 18px/1.5 sans-serif; max-width: 34em; margin: 3em auto; padding: 0 1em }}
footer {{ color: #666; border-top: 1px solid #ccc }}
code {{ background: #eee }}
</style>
{body}
<footer>
{imprint}<p lang="en"><small>Accept-Language: <code dir="ltr">{field}</code></small></p>
</footer>
</html>
"""


class Server(socketserver.ThreadingMixIn, WSGIServer):
    """Answers each request in a thread of its own."""

    daemon_threads = True


def elements(name, label):
    """Returns elements of this name with the texts of a label, each marked with its language."""
    if label is None:
        return ""
    head = f'<{name} lang="{label.language}" dir="auto">'
    return "".join(f"{head}{html.escape(text)}</{name}>\n" for text in label.texts)


def page(environ):
    """Returns the page for the reader of a request."""
    label = environ[LABEL]
    title = label("title")
    parts = [("h1", title), ("p", label("greeting")), ("p", label("news"))]
    return PAGE.format(
        language=environ[LANGUAGE],
        title=html.escape(title.texts[0]),
        body="".join(elements(*it) for it in parts),
        imprint=elements("p", label("imprint")),
        field=html.escape(environ.get("HTTP_ACCEPT_LANGUAGE", "(none)")),
    ).encode()


def answer(environ, start_response):
    """The application: it has the page, if the site has a title for the reader."""
    if environ["PATH_INFO"] == "/" and environ[LANGUAGE] is not None:
        status, kind, body = "200 OK", "text/html; charset=utf-8", page(environ)
    else:
        status, kind, body = "404 Not Found", "text/plain", b"There is no such page.\n"
    start_response(status, [("Content-Type", kind), ("Content-Length", str(len(body)))])
    return [] if environ["REQUEST_METHOD"] == "HEAD" else [body]


def main(words):
    if not 1 <= len(words) <= 2:
        sys.exit(__doc__)
    port = int(words[1]) if len(words) > 1 else 8080
    try:
        app = WSGILanguageMiddleware(answer, path=words[0], message="title", default="en")
    except (OSError, Refused) as fault:
        sys.exit(f"{words[0]}: {fault}")
    with make_server("localhost", port, app, Server) as server:
        print(f"http://localhost:{server.server_port}/", flush=True)
        server.serve_forever()


if __name__ == "__main__":
    main(sys.argv[1:])
