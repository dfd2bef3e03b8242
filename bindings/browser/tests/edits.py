#!/usr/bin/env python3
"""Prints sequences of edits and exchanges with what the command makes of them, as JSON, for answers.mjs.

usage: edits.py LEXICAT COUNT

Each of the COUNT sequences, which are made of SEED, is of two sites, and ends with questions to the
first.
"""
import concurrent.futures
import json
import os
import random
import subprocess
import sys

sys.dont_write_bytecode = True
from questions import SEED, in_javascript, library_questions  # noqa: E402

OF = library_questions()
IDS, BAD_IDS = OF.IDS[:5], OF.BAD_IDS
TAGS = OF.TAGS[:8] + ["@none"]
BAD_TAGS = OF.BAD_TAGS
TEXTS = OF.TEXTS + ["x" * 65535]
BAD_MAPS = ["", "[]", "{", '{"m":{"en":1}}', '{"m":{"e_n":"x"}}', '{"@m":{"en":"x"}}', '{"m":{"en":["x",2]}}', '{"m":"x"}']
MOMENTS = [0, 3, 5, 7, 7, 9, 20, 1764000000000, 2**53 + 1, 2**64 - 1]


class Command:
    def __init__(self, program):
        self.program = program

    def run(self, words, *documents):
        """The output, or the refusal as silkwaram.mjs throws it."""
        given = b"".join(documents)
        ran = subprocess.run([self.program, *words], input=given, capture_output=True)
        if ran.returncode in (0, 1):
            return ran.stdout
        line = ran.stderr.decode()
        # (`update` has the old maps as document 2, and the new ones as document 3)
        of_second = words[0] == "update" and line.endswith(" of document 3\n")
        return {**in_javascript(OF, OF.refused(ran.returncode, line)), "ofSecond": of_second}


def line(text):
    """A document on one line, with its LF, as the first of several."""
    return text.encode().replace(b"\n", b" ") + b"\n"


def some_maps(rng):
    if rng.random() < 0.15:
        return rng.choice(BAD_MAPS)
    maps = {}
    for name in rng.sample(IDS, rng.randint(0, 4)):
        labels = {tag: [rng.choice(TEXTS[:6]) for _ in range(rng.choice([1, 1, 2, 5]))]
                  for tag in rng.sample(TAGS, rng.randint(1, 5))}
        maps[name] = {tag: texts[0] if len(texts) == 1 else texts for tag, texts in labels.items()}
    return json.dumps(maps, ensure_ascii=False)


class Sequence:
    """Two sites, what is done with them, and what it has to make."""

    def __init__(self, command, seed):
        self.command = command
        self.rng = random.Random(seed)
        self.steps = []
        self.sites = []
        for name in ("paris", "tokyo"):
            self.sites.append(self.command.run(["new", "--site", name]))

    def done(self, site, call, words, made):
        """A step: what it makes is a new document of the site, or a refusal, which leaves it."""
        refused = made if isinstance(made, dict) else None
        if refused is None:
            self.sites[site] = made
        self.steps.append({"site": site, "call": call, "words": words, "refused": refused,
                           "document": self.sites[site].decode()})

    def edit(self, site):
        rng = self.rng
        now = str(rng.choice(MOMENTS[:-2] if rng.random() < 0.9 else MOMENTS))
        options = {"now": now}
        call = rng.choice(["put", "put", "put", "delete", "importMaps", "update"])
        held = self.sites[site]
        if call in ("put", "delete"):
            name, tag = OF.one_of(rng, IDS, BAD_IDS), OF.one_of(rng, TAGS, BAD_TAGS)
            text = rng.choice(TEXTS) if rng.random() < 0.95 else "x" * 65536
            texts = [text] if call == "put" else []
            words = [call, "--now", now, f"--id={name}", f"--lang={tag}", "--", *texts]
            self.done(site, call, [name, tag, *texts, options], self.command.run(words, held))
        elif call == "importMaps":
            maps = some_maps(rng)
            made = self.command.run(["import", "--now", now], held, maps.encode())
            self.done(site, call, [maps, options], made)
        else:
            old, new = some_maps(rng), some_maps(rng)
            made = self.command.run(["update", "--now", now], held, line(old), new.encode())
            self.done(site, call, [old, new, options], made)

    def exchange(self, site):
        rng = self.rng
        own, other = self.sites[site], self.sites[1 - site]
        limit, checks_own = rng.choice([0, 0, 5, 2**53 + 1]), rng.random() < 0.5
        checks = [*(["--not-after", str(limit)] if limit else []), *(["--check-own"] if checks_own else [])]
        options = {"notAfter": str(limit), "checkOwn": checks_own}
        if rng.random() < 0.4:
            made = self.command.run(["merge", *checks], own, other)
            self.done(site, "merge", [options], made)
            return
        # (now and then a delta for another site, or none at all)
        of = other if rng.random() < 0.1 else own
        shows = rng.choice([[], ["--labels"]])
        delta = self.command.run(["delta"], other, self.command.run(["summary", *shows], of))
        if rng.random() < 0.1:
            delta = OF.spoiled(rng, delta) if json.loads(delta)["cells"] else delta[:-3]
        try:
            text = delta.decode()
        except UnicodeDecodeError:
            return
        self.done(site, "take", [text, options], self.command.run(["take", *checks], own, delta))

    def asked(self, call, words, command, *documents, read=bytes.decode):
        made = self.command.run(command, *documents)
        wanted = made if isinstance(made, dict) and "number" in made else read(made)
        self.steps.append({"site": 0, "call": call, "words": words, "wanted": wanted})

    def ask(self):
        rng = self.rng
        own, other = self.sites
        self.asked("summary", [], ["summary"], own)
        self.asked("summary", [{"labels": True}], ["summary", "--labels"], own)
        self.asked("export", [], ["export"], own, read=json.loads)
        self.asked("labels", [], ["labels"], own, read=counts)
        self.asked("status", [], ["status"], own, read=status)
        self.asked("deltaFor", [self.command.run(["summary"], other).decode()], ["delta"], own,
                   self.command.run(["summary"], other))
        for _ in range(2):
            tag, source = OF.one_of(rng, TAGS, BAD_TAGS), OF.one_of(rng, TAGS, BAD_TAGS)
            self.asked("missing", [tag], ["missing", f"--lang={tag}"], own, read=json.loads)
            self.asked("outdated", [tag, source], ["outdated", f"--lang={tag}", f"--source={source}"],
                       own, read=json.loads)
        self.asked("changes", [], ["changes"], own, other, read=changes)

    def made(self):
        for _ in range(self.rng.randint(4, 9)):
            site = self.rng.randrange(2)
            (self.edit if self.rng.random() < 0.7 else self.exchange)(site)
        self.ask()
        return self.steps


def exact(number):
    """A whole number as the page has it: as a text with an `n`, where it passes 2^53."""
    return number if number < 2**53 else f"{number}n"


def stamp(time, site, count):
    return {"time": exact(int(time)), "site": site, "count": exact(int(count))}


def status(text):
    _, site, _, cells, _, labels, _, *last = text.decode().split()
    return {"site": site, "cells": int(cells), "labels": int(labels),
            "last": None if last == ["none"] else stamp(*last)}


def counts(text):
    """The answer of `labels`."""
    rows = (row.split() for row in text.decode().splitlines()[1:])
    return {language: int(count) for language, count in rows}


def cell(given):
    return given and {**stamp(*given[:3]), "texts": given[3]}


def changes(text):
    rows = [json.loads(it) for it in text.decode().split("\n")[1:-1]]
    return [{"id": name, "language": tag, "before": cell(before), "after": cell(after)}
            for name, tag, before, after in rows]


def main(words):
    lexicat, count = words
    command = Command(lexicat)
    with concurrent.futures.ThreadPoolExecutor(os.cpu_count()) as pool:
        made = list(pool.map(lambda it: Sequence(command, f"{SEED} {it}").made(), range(int(count))))
    json.dump(made, sys.stdout)


if __name__ == "__main__":
    main(sys.argv[1:])
