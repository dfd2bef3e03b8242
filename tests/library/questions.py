#!/usr/bin/env python3
"""Compares the library's answers with those of the command to the same questions.

usage: questions.py LEXICAT ANSWERS COUNT    (ANSWERS: answers.c as it was built)
       questions.py --print COUNT            prints the questions alone, for a run under valgrind

It makes COUNT questions for each call over a few sites, always the same ones of a SEED.
"""
import collections
import concurrent.futures
import json
import os
import random
import re
import subprocess
import sys

# (where nobody says one, as where bindings ask the same questions)
SEED = int(os.environ.get("SEED", "1"))
EXTENDED, LENIENT = 1, 2
TAGS = (
    "en en-GB en-US fr fr-CA FR-ch de de-DE de-AT de-Latn-DE-1996 pt-BR pt sr-Latn sr zh-Hant-TW"
    " zh-Hans zh ja nb no i-klingon en-x-a-b x-private sl-rozaj-biske @none"
).split()
BAD_TAGS = ["", "en_US", "toolongsubtag", "en--GB", "1", "é", "a" * 256, "en-", "@NONE", "x"]
BASIC_RANGES = TAGS[:-1] + ["*", "zh-Hant-CN-x-private1-private2", "en-GB-oed"]
RANGES = BASIC_RANGES + ["de-*", "*-CH", "de-*-DE", "*-*", "en-*"]
WEIGHTS = ["", "", ";q=0.5", ";q=0.8", "; Q=0.123", ";q=0", ";q=1.000", ";q=1."]
BAD_ELEMENTS = ["en_US", "de;q=.8", "en;q=1.5", "fr;q=0.1234", "a b", "*-", "de;level=1", "é", "-"]
# What a reader is offered: None stands for what the command calls PUBLIC.
PUBLIC = "*, x;q=0"
OFFERS = [None, None, "*", PUBLIC, "en, fr", "*, de;q=0", "x, de;q=0.001, en;q=0", ","]
BAD_FALLBACKS = ["en", "en=", "@none=en", "en=fr=de", "de =fr", "en=é", "zh=*"]
IDS = ["greeting", "news.title", "a", "größe", "-x", "x" * 128, "m 1"]
BAD_IDS = ["", "@context", "x" * 129, "a\tb"]
TEXTS = [
    "Hello",
    "Bonjour",
    "",
    'with "quotes"',
    "two\nlines",
    "こんにちは",
    "\\",
    "\u0001",
    "😀",
    "x" * 300,
]

Question = collections.namedtuple("Question", "call flags texts place site offer fallbacks")
Answer = collections.namedtuple("Answer", "status number given offset row count answer")
# What the command's line of a refusal may have, in the order of an Answer, with its bit of `given`.
HAS_OFFSET, HAS_ROW, HAS_COUNT = 1, 2, 4
PLACES = {
    HAS_OFFSET: re.compile(r" at (\d+)"),
    HAS_ROW: re.compile(r" in row (\d+)"),
    HAS_COUNT: re.compile(r": text (\d+)|label has (\d+)|, cell (\d+)"),
}


def site_document(rng):
    """A site document of version 2, as the command would write it."""
    cells = {}
    for name in rng.sample(IDS, rng.randint(1, len(IDS))):
        for tag in rng.sample(TAGS, rng.randint(1, 12)):
            label = [rng.choice(TEXTS) for _ in range(rng.choice([1, 1, 1, 2, 3, 64]))]
            cells[name, tag.lower()] = None if rng.random() < 0.1 else label
    rows = [
        [*key, rng.randint(0, 9), "paris", at, cells[key]]
        for at, key in enumerate(sorted(cells, key=lambda key: [it.encode() for it in key]))
    ]
    return encoded({"cells": rows, "kind": "site", "site": "paris", "version": 2})


def encoded(value):
    return json.dumps(value, ensure_ascii=False, separators=(",", ":")).encode() + b"\n"


def spoiled(rng, document):
    """The document with something of it changed: mostly it is refused, sometimes not."""
    value = json.loads(document)
    cells = value["cells"]
    row = rng.randrange(len(cells))
    way = rng.randrange(12)
    if way == 0:
        at = rng.randrange(len(document))
        return document[:at] + bytes([rng.randrange(256)]) + document[at + 1 :]
    if way == 1:
        return document[: rng.randrange(len(document))]
    if way == 2:
        at = rng.randrange(len(document))
        return document[:at] + rng.choice([b"\xff", b" ", b",", b"\xc3\xa9", b"0"]) + document[at:]
    if way == 3:
        value["version"] = rng.choice([1, 3, 2.0, "2", 0])
    elif way == 4:
        value["site"] = rng.choice(["Paris", "", "x" * 17, 7])
    elif way == 5:
        value["kind"] = rng.choice(["sites", "delta", None])
    elif way == 6:
        cells.insert(0, cells.pop())
    elif way == 7:
        cells[row][0] = rng.choice(BAD_IDS)
    elif way == 8:
        cells[row][1] = rng.choice(BAD_TAGS)
    elif way == 9:
        cells[row][5] = rng.choice([[], ["a"] * 65, ["x" * 65536], "a", [1]])
    elif way == 10:
        cells[row][rng.randrange(6)] = rng.choice([None, -1, 1.5, "a", 2**64])
    else:
        value[rng.choice(["more", "cells", "kind"])] = rng.choice([1, [], {}])
    return encoded(value)


def field(rng, is_extended):
    elements = []
    for _ in range(rng.choice([0, 1, 1, 2, 3, 5, 9])):
        if rng.random() < 0.06:
            elements.append(rng.choice(BAD_ELEMENTS))
        else:
            weight = "" if is_extended and rng.random() < 0.95 else rng.choice(WEIGHTS)
            has_all = is_extended or rng.random() < 0.1
            elements.append(rng.choice(RANGES if has_all else BASIC_RANGES) + weight)
    if rng.random() < 0.01:
        elements.append("x" * 65536)
    return rng.choice([", ", ",", " ,\t", ",,"]).join(elements)


def one_of(rng, good, bad):
    return rng.choice(bad) if rng.random() < 0.05 else rng.choice(good)


def default(rng):
    return "" if rng.random() < 0.5 else one_of(rng, TAGS, BAD_TAGS[1:])


def table(rng):
    """A table of fallbacks, or None."""
    if rng.random() < 0.5:
        return None
    tags = TAGS[:-1]
    elements = [f"{it}={rng.choice(tags)}" for it in rng.sample(tags, rng.randint(1, 8))]
    if rng.random() < 0.05:
        # (an element again, or one that is none)
        elements.append(rng.choice([*elements, *BAD_FALLBACKS]))
    if rng.random() < 0.01:
        elements.append(" " * 65536)
    return rng.choice([",", ", ", " ,,\t"]).join(elements)


def question(rng, call, site):
    flags = rng.choice([0, 0, EXTENDED, LENIENT, EXTENDED | LENIENT])
    read = field(rng, flags & EXTENDED)
    name, place = one_of(rng, IDS, BAD_IDS), 0
    if call == "pick":
        bad = BAD_TAGS if rng.random() < 0.2 else TAGS
        tags = [one_of(rng, TAGS, bad) for _ in range(rng.randint(1, 8))]
        tags = [it.swapcase() if rng.random() < 0.3 and it != "@none" else it for it in tags]
        # (a last line without bytes wants its LF)
        last = "\n" if not tags[-1] or rng.random() < 0.5 else ""
        texts = [read, "\n".join(tags) + last, default(rng)]
    elif call == "bundle":
        texts = [read, default(rng)]
    else:
        texts = [name, read] + ([] if call == "filter" else [default(rng)])
        place = rng.choice([0, 0, 0, 1, 2, 63, 64, 2**64 - 1]) if call == "text" else 0
    rules = rng.choice(OFFERS), None if call == "filter" else table(rng)
    return Question(call, flags, tuple(it.encode() for it in texts), place, site, *rules)


def questions(count):
    rng = random.Random(f"{SEED} questions")
    sites = [site_document(rng) for _ in range(5)]
    asked = []
    for at, site in enumerate(sites):
        asked.append(Question("open", 0, (site,), 0, site, None, None))
        share = count // len(sites) + (at < count % len(sites))
        for call in ("pick", "lookup", "text", "filter", "bundle"):
            asked += [question(rng, call, site) for _ in range(share)]
    held = sites[-1]
    for _ in range(count):
        document = spoiled(rng, held)
        asked.append(Question("open", 0, (document,), 0, document, None, None))
        # (a site that is refused leaves the old one, and one that is not takes its place)
        asked.append(question(rng, "lookup", None))
    return asked


def line_of(asked):
    texts = [it.hex() or "-" for it in asked.texts] + ["-"] * (3 - len(asked.texts))
    # (without an offer all tags are offered, as by NULL)
    offer = "*" if asked.call == "pick" and asked.offer is None else asked.offer
    rules = [(it or "").encode().hex() or "-" for it in (offer, asked.fallbacks)]
    return " ".join([asked.call, str(asked.flags), *texts, str(asked.place), *rules])


def run(lexicat, words, document=b""):
    ran = subprocess.run([lexicat, *words], input=document, capture_output=True)
    return ran.returncode, ran.stdout, ran.stderr.decode()


def refused(status, told):
    """The answer that a line of the command's refusals stands for."""
    number = int(re.match(r"refused (\d+): ", told)[1])
    found = {bit: pattern.search(told) for bit, pattern in PLACES.items()}
    given = sum(bit for bit, it in found.items() if it)
    places = [int(next(filter(None, it.groups()))) if it else 0 for it in found.values()]
    return Answer(status, number, given, *places, b"")


def options(asked, read, dflt):
    words = ["--scheme=extended"] if asked.flags & EXTENDED else []
    words += ["--lenient"] if asked.flags & LENIENT else []
    words += [b"--default=" + dflt] if dflt else []
    words += [] if asked.fallbacks is None else ["--fallbacks=" + asked.fallbacks]
    words += [] if asked.call == "pick" else ["--offer=" + (PUBLIC if asked.offer is None else asked.offer)]
    return [*words, "--", read]


def offered(lexicat, offer, tags):
    """Those of the tags that filtering by an offer takes."""
    taken = run(lexicat, ["pick", "--all", "--", offer, *tags])[1].split()[2::2]
    return [it for it in tags if it == b"@none" or it.lower() in taken]


def picked(lexicat, asked, words, tags):
    """What the command picks: first of all tags, for its refusals, then of those that are offered."""
    ran = run(lexicat, [*words, *tags])
    if ran[0] > 1 or asked.offer is None:
        return ran
    tags = offered(lexicat, asked.offer, tags)
    return run(lexicat, [*words, *tags]) if tags else (1, b"nothing\n", "")


def wanted(lexicat, asked):
    """The command's answer to the question, as the library has to give it."""
    if asked.call == "open":
        status, _, told = run(lexicat, ["status"], asked.texts[0])
        return refused(status, told) if status > 1 else Answer(0, 0, 0, 0, 0, 0, b"")
    if asked.call == "pick":
        read, lines, dflt = asked.texts
        tags = re.sub(rb"\n\Z", b"", lines).split(b"\n")
        words = ["pick", *options(asked, read, dflt)]
        status, line, told = picked(lexicat, asked, words, tags)
        if status > 1:
            return refused(status, told)
        how, _, found = line.rstrip(b"\n").partition(b" ")
        tag = next((it for it in tags if it.lower() == found), b"")
        return Answer(status, 0, 0, 0, 0, int(how == b"default"), tag)
    if asked.call == "bundle":
        words = ["bundle", *options(asked, *asked.texts)]
    else:
        name, read, dflt = [*asked.texts, b""][:3]
        command = "filter" if asked.call == "filter" else "lookup"
        words = [command, b"--id=" + name, *options(asked, read, dflt)]
    status, line, told = run(lexicat, words, asked.site)
    if status > 1:
        return refused(status, told)
    if asked.call != "text":
        return Answer(status, 0, 0, 0, 0, 0, line)
    texts = [] if status else json.loads(line.split(b" ", 2)[2])
    if asked.place < len(texts):
        return Answer(0, 0, 0, 0, 0, len(texts), texts[asked.place].encode())
    return Answer(1, 0, 0, 0, 0, len(texts), b"")


def with_sites(asked, all_wanted):
    """Names the site of each question that is asked of what is open then."""
    held, named = None, []
    for it in asked:
        if it.call == "open" and all_wanted[it].status == 0:
            held = it.site
        named.append(it if it.site else it._replace(site=held))
    return named


def compare(lexicat, answers, count):
    asked = questions(count)
    with concurrent.futures.ThreadPoolExecutor(os.cpu_count()) as pool:
        opens = [it for it in asked if it.call == "open"]
        opened = dict(zip(opens, pool.map(lambda it: wanted(lexicat, it), opens)))
        asked = with_sites(asked, opened)
        known = list(pool.map(lambda it: opened.get(it) or wanted(lexicat, it), asked))
    lines = "".join(f"{line_of(it)}\n" for it in asked)
    ran = subprocess.run([answers], input=lines, stdout=subprocess.PIPE, text=True, check=True)
    said = ran.stdout.split("\n")[:-1]
    if len(said) != len(asked):
        sys.exit(f"questions: {len(asked)} questions and {len(said)} answers")
    faults = 0
    for it, wants, line in zip(asked, known, said):
        *numbers, answer = line.split(" ")
        got = Answer(*map(int, numbers), bytes.fromhex(answer))
        if got != wants:
            faults += 1
            if faults <= 10:
                print(f"questions: {line_of(it)[:300]}\n  {it.texts}")
                print(f"  the command: {wants}\n  the library: {got}")
    numbers = sorted({it.number for it in known} - {0})
    calls = collections.Counter(it.call for it in asked)
    each = ", ".join(f"{calls[it]} {it}" for it in sorted(calls))
    refusals = " ".join(map(str, numbers))
    print(f"{len(asked)} ({each}), refusals {refusals}; {faults} differ from the command's")
    return faults


def main(words):
    if words[0] == "--print":
        print("\n".join(map(line_of, questions(int(words[1])))))
        return 0
    lexicat, answers, count = words
    return 1 if compare(lexicat, answers, int(count)) else 0


if __name__ == "__main__":
    sys.exit(main(sys.argv[1:]))
