#!/usr/bin/env python3
"""Compares the labels that nginx answers, byte for byte, with what `lexicat lookup` answers.

usage: beside_lookup.py LEXICAT HOST:PORT SITE FIELDS
           asks the locations of beside_pick.py below /hostile, and /hostile/plain (labels.conf), by
           so many fields, some of them of any bytes, on one header line or several
       beside_lookup.py --maps
           prints the language maps of the site

The fields are made of SEED.
"""
import http.client
import json
import random
import sys

sys.dont_write_bytecode = True
from beside_pick import LOCATIONS, RANGES, SEED, fields, found  # noqa: E402

TEXTS = {
    "en": '"quoted", \\ $title ${title} %41 <b>',
    "fr": "lines\nand\r\nHeaders: none\r\n\r\n",
    "de-CH": "zeros\0 \0",
    "zh-Hant": "x" * 65535,
    "ja": "",
    "nb": "\u007f\u009f\u2028\ufeff\U0001f600",
    "de": "y" * 1024,
    "en-x-a": "z" * 1025,
}
MAPS = {
    "hostile": {**TEXTS, "i-klingon": ["first", "second"]},
    "plain": {"en": '"],["', "fr": '"],["plain","fr",'},
}
# Where each is asked: the message, and the location of beside_pick.py by whose rules.
ASKED = {f"hostile/{name}": ("hostile", name) for name in LOCATIONS}
ASKED["hostile/plain"] = ("plain", "strict")


def hostile_field(rng):
    """Bytes as a header line takes them: no zero and no end of a line, and no blank at its ends."""
    length = rng.choice([0, 1, 2, 5, 30, 300, 5000])
    alphabets = [bytes(range(1, 256)), b"\xff\x80\xc3\xa9,;=q.", b"en-fr*;q=01., \t", b",", b" \t,"]
    some = rng.choice(alphabets)
    made = bytes(it for it in rng.choices(some, k=length) if it not in b"\r\n")
    return rng.choice([made, made + b", fr", b"de-CH;q=0.5," + made]).strip(b" ")


def long_fields():
    """Fields at the limit of 65,535 bytes, and past it."""
    return [b"fr" + b"," * 65533, b"fr" + b"," * 65534, b"en-x-a," * 9000 + b"fr", b"q" * 70000]


def asked_fields(count):
    rng = random.Random(f"{SEED} hostile")
    plain = [it.encode() for it in RANGES] + [it.strip().encode() for it in fields(count // 2)]
    return plain + [hostile_field(rng) for _ in range(count // 2)] + long_fields()


def as_argument(field):
    """The field in UTF-8, as an argument has to be: an underscore is in no range either."""
    return field if field.isascii() else bytes(it if it < 128 else ord("_") for it in field)


def looked_up(lexicat, document, name, path, field):
    """The first text of the label that the command finds, or nothing."""
    words = [lexicat, "lookup", "--id", name, "--default", "en"]
    line = found(path, words, as_argument(field), (), document)
    return b"" if line == b"nothing\n" else json.loads(line.split(b" ", 2)[2])[0].encode()


def in_lines(rng, field):
    """The field on some lines, which are joined by commas."""
    return [it.strip(b" ") for it in field.split(b",", rng.choice([0, 0, 1, 3]))]


def answered(connection, path, lines):
    connection.putrequest("GET", f"/{path}")
    for line in lines:
        connection.putheader("Accept-Language", line)
    connection.endheaders()
    response = connection.getresponse()
    return response.status, response.read()


def main(lexicat, server, site, count):
    with open(site, "rb") as file:
        document = file.read()
    rng = random.Random(f"{SEED} lines")
    connection = http.client.HTTPConnection(server, timeout=300)
    wrong, texts = [], set()
    asked = [(path, field) for field in asked_fields(int(count)) for path in ASKED]
    for path, field in asked:
        lines = in_lines(rng, field)
        wanted = looked_up(lexicat, document, *ASKED[path], b",".join(lines))
        texts.add(wanted)
        got = answered(connection, path, lines)
        if got != (200, wanted):
            status, text = got
            wrong.append(f"wanted {wanted[:80]!r}, not {status} {text[:80]!r}, of {field[:80]!r}")
    print("\n".join(wrong[:20]))
    print(f"{len(asked)} questions, {len(texts)} texts, {len(wrong)} wrong")
    if wrong or len(texts) < len(TEXTS):
        sys.exit("wrong, or too few")


if sys.argv[1] == "--maps":
    print(json.dumps(MAPS))
else:
    main(*sys.argv[1:])
