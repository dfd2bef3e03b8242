#!/usr/bin/env python3
"""Nanoseconds of processor time of a question from Python. usage: front.py SITE.json LEXICAT"""
import resource
import subprocess
import sys

from silkwaram import Site, pick

FIELD, TAGS = "da, en-GB;q=0.8, en;q=0.7", ["en", "fr", "de", "es", "it", "pt-BR", "ja", "zh-Hant"]


def now():
    """Returns the processor time of this process and of those that it has run."""
    used = [resource.getrusage(it) for it in (resource.RUSAGE_SELF, resource.RUSAGE_CHILDREN)]
    return sum(it.ru_utime + it.ru_stime for it in used)


def measure(what, call, calls=5000):
    least = float("inf")
    for _ in range(5):
        start = now()
        for _ in range(calls):
            call()
        least = min(least, (now() - start) / calls * 1e9)
    print(f"| {what} | {least:.0f} |")


def main(path, lexicat):
    with open(path, "rb") as it:
        document = it.read()
    measure("`silkwaram.pick` from Python", lambda: pick(FIELD, TAGS))
    try:
        from webob.acceptparse import create_accept_language_header as accept

        ask = lambda: accept(FIELD).lookup(TAGS, default="en")
        measure("WebOb's parse and `lookup` from Python", ask, 2000)
    except ImportError:
        print("front.py: WebOb is not installed", file=sys.stderr)
    with Site.open(document) as site:
        ask = lambda: site.text("message-777", "de-CH, fr;q=0.5", default="en")
        measure("`Site.text` from Python, 16,000 cells", ask)
    how = {"stdout": subprocess.PIPE, "check": True}
    run = lambda words, text: subprocess.run([lexicat, *words], input=text, **how)
    measure("a process `lexicat pick`", lambda: run(["pick", FIELD, *TAGS], b""), 100)
    asked = ["lookup", "--id", "message-777", "--default", "en", "de-CH, fr;q=0.5"]
    measure("a process `lexicat lookup`, 16,000 cells", lambda: run(asked, document), 20)


if __name__ == "__main__":
    main(*sys.argv[1:])
