#!/usr/bin/env python3
"""One text in French for each of many messages. usage: messages.py site|po|pairs COUNT BYTES

They are printed as the document of a site, as it is written; as a PO file; or as lines of an id, a
tab and a text. A text has so many bytes.
"""
import sys


def messages(count, size):
    for at in range(count):
        yield f"message-{at:07}", f"Texte {at} en fran\u00e7ais ".ljust(size - 1, ".")


def lines_of(kind, count, size):
    pairs = messages(count, size)
    if kind == "pairs":
        for id, text in pairs:
            yield f"{id}\t{text}\n"
    elif kind == "po":
        yield 'msgid ""\nmsgstr "Content-Type: text/plain; charset=UTF-8\\n"\n'
        for id, text in pairs:
            yield f'\nmsgid "{id}"\nmsgstr "{text}"\n'
    else:
        yield '{"cells":['
        for at, (id, text) in enumerate(pairs):
            yield f'{"," if at else ""}["{id}","fr",1,"front",{at},["{text}"]]'
        yield '],"kind":"site","site":"front","version":2}\n'


def main(kind, count, size):
    sys.stdout.reconfigure(encoding="utf-8")
    sys.stdout.writelines(lines_of(kind, int(count), int(size)))


if __name__ == "__main__":
    main(*sys.argv[1:])
