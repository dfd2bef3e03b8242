#!/usr/bin/env python3
"""Prints questions with the command's answers, as JSON, for answers.mjs.

usage: questions.py LEXICAT COUNT

The questions are those that tests/library/library.t asks the library for C, COUNT of each call, a third of them widened;
and as many that filter tags. They are made of SEED.
"""
import base64
import concurrent.futures
import importlib.util
import json
import os
import random
import re
import subprocess
import sys

sys.dont_write_bytecode = True
SEED = os.environ["SEED"]
WIDEN = 4
CALLS = ("open", "pick", "lookup", "text", "filter", "bundle")
HERE = os.path.dirname(os.path.realpath(__file__))


def library_questions():
    path = f"{HERE}/../../../tests/library/questions.py"
    made = importlib.util.module_from_spec(importlib.util.spec_from_file_location("library_questions", path))
    made.__spec__.loader.exec_module(made)
    return made


def label(line):
    how, language, texts = line.decode().rstrip("\n").split(" ", 2)
    return {"language": language, "texts": json.loads(texts), "isDefault": how == "default"}


def choices(lines):
    rows = [it.split(" ", 2) for it in lines.decode().split("\n")[1:-1]]
    return [{"language": it, "weight": int(weight), "texts": json.loads(texts)} for it, weight, texts in rows]


def in_javascript(of, known):
    """What silkwaram.mjs throws, where the library refuses so."""
    places = zip(("offset", "row", "count"), of.PLACES, (known.offset, known.row, known.count))
    found = {name: it if known.given & bit else None for name, bit, it in places}
    return {"number": known.number, **found, "ofSecond": False}


def answer_in_javascript(of, asked, known):
    """What silkwaram.mjs has to answer where the library answers `known`."""
    if known.status > 2:
        return in_javascript(of, known)
    if asked.call == "open":
        return None
    if asked.call == "filter":
        return choices(known.answer)
    if asked.call == "bundle":
        return json.loads(known.answer)
    if known.status == 1:
        return None
    return label(known.answer) if asked.call == "lookup" else known.answer.decode()


def question(of, asked):
    """A question as answers.mjs takes it: the call, what it is given, and its options."""
    options = {"scheme": "extended" if asked.flags & of.EXTENDED else "basic",
               "lenient": bool(asked.flags & of.LENIENT)}
    if asked.flags & WIDEN:
        options["widen"] = True
    rules = {"offer": asked.offer, "fallbacks": asked.fallbacks}
    options.update({name: it for name, it in rules.items() if it is not None})
    if asked.call == "open":
        return ["open", base64.b64encode(asked.texts[0]).decode()]
    texts = [it.decode() for it in asked.texts]
    if asked.call == "pick":
        read, lines, options["default"] = texts
        return ["pick", read, re.sub(r"\n\Z", "", lines).split("\n"), options]
    if asked.call == "bundle":
        read, options["default"] = texts
        return ["bundle", read, options]
    name, read, *rest = texts
    if rest:
        options["default"] = rest[0]
    if asked.call == "text":
        options["place"] = str(asked.place)
    return [asked.call, name, read, options]


def tag_filter(of, lexicat, rng):
    """A question to `filter` of silkwaram.mjs, and what `pick --all` answers."""
    flags = rng.choice([0, of.EXTENDED, of.LENIENT, of.EXTENDED | of.LENIENT])
    read = of.field(rng, flags & of.EXTENDED)
    tags = [of.one_of(rng, of.TAGS, of.BAD_TAGS if rng.random() < 0.2 else of.TAGS) for _ in range(rng.randint(1, 8))]
    tags = [it.swapcase() if rng.random() < 0.3 and it != "@none" else it for it in tags]
    options = {"scheme": "extended" if flags & of.EXTENDED else "basic", "lenient": bool(flags & of.LENIENT)}
    asked = of.Question("pick", flags, (read.encode(), b"", b""), 0, None, None, None)
    words = ["pick", "--all", *of.options(asked, read.encode(), b""), *[it.encode() for it in tags]]
    status, lines, told = of.run(lexicat, words)
    if status > 1:
        return [["filterTags", read, tags, options], in_javascript(of, of.refused(status, told))]
    rest, answer = list(tags), []
    for line in lines.decode().split("\n")[1:-1]:
        found, weight = line.split(" ")
        # (the module answers each tag as it was given; of equal ones the first comes first)
        tag = next(it for it in rest if it.lower() == found)
        rest.remove(tag)
        answer.append({"tag": tag, "weight": int(weight)})
    return [["filterTags", read, tags, options], answer]


def widened(of, asked):
    """The questions, a third of them widened, as the command is asked them then."""
    plain = of.options
    of.options = lambda it, *texts: ["--widen"] * bool(it.flags & WIDEN) + plain(it, *texts)
    rng = random.Random(f"{SEED} widened")
    calls = ("pick", "lookup", "text", "bundle")
    return [it._replace(flags=it.flags | WIDEN) if it.call in calls and rng.random() < 0.33 else it for it in asked]


def main(words):
    lexicat, count = words
    of = library_questions()
    asked = widened(of, of.questions(int(count)))
    with concurrent.futures.ThreadPoolExecutor(os.cpu_count()) as pool:
        opens = [it for it in asked if it.call == "open"]
        opened = dict(zip(opens, pool.map(lambda it: of.wanted(lexicat, it), opens)))
        asked = of.with_sites(asked, opened)
        known = list(pool.map(lambda it: opened.get(it) or of.wanted(lexicat, it), asked))
    made = [[question(of, it), answer_in_javascript(of, it, its)] for it, its in zip(asked, known) if it.call in CALLS]
    rng = random.Random(f"{SEED} tags")
    made += [tag_filter(of, lexicat, rng) for _ in range(int(count))]
    json.dump(made, sys.stdout)


if __name__ == "__main__":
    main(sys.argv[1:])
