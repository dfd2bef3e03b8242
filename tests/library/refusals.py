#!/usr/bin/env python3
"""Compares what the library says of refusals with docs/REFUSALS.md and with the command.

usage: refusals.py LEXICAT    (SILKWARAM_LIBRARY names the library, PYTHONPATH the package)

Of each number sw_refusal_text has to answer the text of the page, sw_refusal_code its word, and
sw_refusal what `explain` prints as rule. Then the same input is given to the command and to the package for Python, of each
number that the page names for the library: what is raised has to have the number, offset, row and
count of the line that the command prints, and to say the same.
"""
import json
import os
import re
import subprocess
import sys

sys.dont_write_bytecode = True
from questions import HAS_COUNT, HAS_OFFSET, HAS_ROW, refused  # noqa: E402

from silkwaram import Refused, Site, filter_tags, pick  # noqa: E402
from silkwaram._library import NOTHING, answered, library  # noqa: E402

# The number, the word and the text at the head of a section.
SECTION = r"^### (\d+), .*\n\n`([^`]+)`: `([^`]+)`"
PAGE = os.path.join(os.path.dirname(os.path.realpath(__file__)), "../../docs/REFUSALS.md")
NUMBERS = range(1, 32)
NO_NUMBERS = (0, 32, 33, 256, 256 + 3, 2**31, 2**32 - 1)
# What the call says in place of the rule, where the shape of a document is refused.
WANTED = {
    "open": "a site document is wanted",
    "import": "language maps are wanted",
    "update": "language maps are wanted",
    "take": "a delta document is wanted",
    "delta": "a summary document is wanted",
}
SHAPE = 20
# The time and the count of the latest stamp, after which no edit comes.
LAST = (2**64 - 1, 2**32 - 1)
LONG = "x" * 65536


def cell(name="m", lang="en", time=5, site="paris", count=0, texts=("Hello",)):
    return [name, lang, time, site, count, texts and list(texts)]


def document(*cells, **members):
    made = {"cells": list(cells), "kind": "site", "site": "paris", "version": 2, **members}
    return json.dumps({name: it for name, it in made.items() if it is not None}).encode() + b"\n"


def delta(*cells, to="paris", **members):
    return document(*cells, kind="delta", site=None, to=to, **members)


def summary(*stamps, **members):
    return document(cells=None, kind="summary", site=None, owner="oslo", stamps=list(stamps), **members)


def maps(**messages):
    return json.dumps(messages).encode() + b"\n"


PARIS = document(cell(), cell(lang="fr", count=1, texts=["Bonjour"]), cell("n", count=2))
WRONG_DOCUMENTS = [
    b"", b"{", b"\xff", b'{"a\xff', b"[]", document(version=3), document(kind="sites"), document(site="Paris"),
    document(more=1), document(cell(""), cell()), document(cell(), cell("@a")), document(cell(lang="")),
    document(cell(lang="a" * 256)), document(cell(lang="en-")), document(cell(), cell(lang="en_US")),
    document(cell(lang="e")), document(cell(texts=["a", LONG])), document(cell(), cell("n", texts=[LONG])),
    document(cell(texts=["a"] * 65)), document(cell(), cell("n", texts=["a"] * 66)), document(cell(texts=[1])),
    document(cell(), cell("n", time=-1)), document(cell(site="Paris")), document(cell(), cell("n", site="")),
    document(cell("n"), cell("m")), document(cell(), cell()),
]  # fmt: skip
WRONG_MAPS = [
    b"", b"{", b"\xff", b'{"a\xff', b"[]", maps(m=1), maps(a={"en": "x"}, m={"en": 1}), maps(m={"": "x"}),
    maps(a={"en": "x"}, m={"en-f r": "x"}), maps(m={"a" * 256: "x"}), maps(m={"e": "x"}),
    maps(a={"en": "x"}, **{"b" * 129: {"en": "x"}}), maps(m={"en": ["x", LONG]}), maps(a={}, m={"en": LONG}),
    maps(m={"en": ["x"] * 65}), maps(m={"en": "x", "EN": "y"}), maps(a={"en": "x"}, m={"en": "x", "EN": "y"}),
]  # fmt: skip
TAGS = ["", "a" * 256, "en_US", "en-toolongsubtag", "e", "en--GB"]
IDS = ["", "x" * 129, "@a", "a\tb"]
FIELDS = ["en, e n", "fr;q=2", "x" * 65536]


def on(site, call):
    """A call to the site of a document."""
    return lambda: call(Site.open(site))


def cases():
    """The name of what is asked, the words of the command, its input, and the call."""
    for it in WRONG_DOCUMENTS:
        yield "open", ["status"], it, lambda it=it: Site.open(it)
    for it in TAGS:
        yield "pick", ["pick", "en", it], b"", lambda it=it: pick("en", [it])
        yield "pick", ["pick", "--all", "en", "fr", it], b"", lambda it=it: filter_tags("en", ["fr", it])
        yield "missing", ["missing", f"--lang={it}"], PARIS, on(PARIS, lambda site, it=it: site.missing(it))
        yield (
            "outdated", ["outdated", "--lang=en", f"--source={it}"], PARIS,
            on(PARIS, lambda site, it=it: site.outdated("en", it)),
        )  # fmt: skip
        yield (
            "put", ["put", "--now=6", "--id=m", f"--lang={it}", "x"], PARIS,
            on(PARIS, lambda site, it=it: site.put("m", it, "x", 6)),
        )  # fmt: skip
        if it:
            yield "pick", ["pick", f"--default={it}", "en", "fr"], b"", lambda it=it: pick("en", ["fr"], default=it)
    for it in FIELDS:
        yield "pick", ["pick", it, "en"], b"", lambda it=it: pick(it, ["en"])
        yield "bundle", ["bundle", it], PARIS, on(PARIS, lambda site, it=it: site.bundle(it))
    for it in IDS:
        yield "lookup", ["lookup", f"--id={it}", "en"], PARIS, on(PARIS, lambda site, it=it: site.lookup(it, "en"))
        yield (
            "delete", ["delete", "--now=6", f"--id={it}", "--lang=en"], PARIS,
            on(PARIS, lambda site, it=it: site.delete(it, "en", 6)),
        )  # fmt: skip
    yield (
        "put", ["put", "--now=6", "--id=m", "--lang=en", LONG], PARIS,
        on(PARIS, lambda site: site.put("m", "en", LONG, 6)),
    )  # fmt: skip
    spent = document(cell(time=LAST[0], count=LAST[1]))
    yield (
        "put", ["put", "--now=6", "--id=m", "--lang=en", "x"], spent,
        on(spent, lambda site: site.put("m", "en", "x", 6)),
    )  # fmt: skip
    good = maps(m={"en": "x"})
    for it in WRONG_MAPS:
        yield "import", ["import", "--now=6"], PARIS + it, on(PARIS, lambda site, it=it: site.import_maps(it, 6))
        line = it.replace(b"\n", b" ") + b"\n"
        words = ["update", "--now=6"]
        yield "update", words, PARIS + line + good, on(PARIS, lambda site, it=it: site.update(it, good, 6))
        yield "update", words, PARIS + good + it, on(PARIS, lambda site, it=it: site.update(good, it, 6))
    for it in [
        b"{", b"\xff", PARIS, delta(version=3), delta(to="Paris"), delta(to="oslo"), delta(cell(lang="e n")),
        delta(cell("a", site="oslo"), cell("b", site="oslo", texts=["x"] * 65)), delta(cell(texts=["Hi"])),
        delta(cell("m", "fr", count=1, texts=["Salut"])), delta(cell("n", count=2, texts=None)),
    ]:  # fmt: skip
        yield "take", ["take"], PARIS + it, on(PARIS, lambda site, it=it: site.take(it))
    late = delta(cell("a", site="oslo", time=3), cell("b", site="oslo", time=9))
    yield "take", ["take", "--not-after=8"], PARIS + late, on(PARIS, lambda site: site.take(late, 8))
    own = delta(cell("a", site="oslo", time=3), cell("n", time=9))
    yield "take", ["take", "--check-own"], PARIS + own, on(PARIS, lambda site: site.take(own, check_own=True))
    oslo = document(cell("a", site="oslo", time=3), cell("n", time=9), site="oslo")
    yield (
        "merge", ["merge", "--check-own"], PARIS + oslo,
        on(PARIS, lambda site: site.merge(Site.open(oslo), check_own=True)),
    )  # fmt: skip
    yield (
        "merge", ["merge", "--not-after=8"], PARIS + oslo,
        on(PARIS, lambda site: site.merge(Site.open(oslo), 8)),
    )  # fmt: skip
    for it in [
        b"{", PARIS, summary(version=3), summary(["m", "e n", 5, "oslo", 0]), summary(["m", "en", 5, "Oslo", 0]),
    ]:  # fmt: skip
        yield "delta", ["delta"], PARIS + it, on(PARIS, lambda site, it=it: site.delta_for(it))
    other = document(cell(), cell("n", count=2, texts=["Hi"]), site="oslo")
    yield "merge", ["sync"], PARIS + other, on(PARIS, lambda site: site.merge(Site.open(other)))


class Faults:
    def __init__(self):
        self.asked, self.wrong = 0, 0

    def compare(self, what, got, wanted):
        self.asked += 1
        if got != wanted:
            self.wrong += 1
            print(f"refusals: {str(what)[:300]}\n  wanted {str(wanted)[:400]}\n  got    {str(got)[:400]}")


def run(lexicat, words, given=b""):
    return subprocess.run([lexicat, *words], input=given, capture_output=True, check=False)


def rule_of(lexicat, number):
    return re.search(r"^rule: (.*)$", run(lexicat, ["explain", str(number)]).stdout.decode(), re.M)[1]


def texts_of(page):
    """The text of each number on the page; where the library has another, it is named below."""
    texts = {int(number): text for number, _, text in re.findall(SECTION, page, re.M)}
    below = page.split("\n## The library\n")[1]
    return {**texts, **{int(number): text for number, text in re.findall(r"of (\d+) `([^`]+)`", below)}}


def said(name, number):
    """What a call answers of a number, or None."""
    answer = answered(lambda out, room, told: getattr(library, name)(number, out, room, told))
    told = answer.told
    if (told.offset, told.row, told.count, told.number, told.given) != (0, 0, 0, 0, 0):
        return f"a report of something: {told.number} {told.given}"
    return None if answer.status == NOTHING and told.len == 0 else answer.text.decode()


def library_line(line):
    """What the library says where the command says this of a refusal, which it knows more of."""
    line = re.sub(r" of document \d+\n$|\n$", "", line)
    line = re.sub(r"stamp \d+ \S+ \d+ used twice", "one stamp is used for two different edits", line)
    return re.sub(r"for site \S+$", "for another site", line)


def raised(call):
    try:
        call()
    except Refused as fault:
        return fault
    return None


def main(lexicat):
    faults, seen = Faults(), set()
    with open(PAGE, encoding="utf-8") as file:
        page = file.read()
    texts = texts_of(page)
    words = {int(number): word for number, word, _ in re.findall(SECTION, page, re.M)}
    rules = {number: rule_of(lexicat, number) for number in NUMBERS}
    faults.compare("numbers of the page", sorted(texts), list(NUMBERS))
    for number in NUMBERS:
        faults.compare(f"the text of {number}", said("sw_refusal_text", number), texts[number])
        faults.compare(f"the word of {number}", said("sw_refusal_code", number), words[number])
        faults.compare(f"what is wanted of {number}", said("sw_refusal", number), rules[number])
    for number in NO_NUMBERS:
        faults.compare(number, [said(it, number) for it in ("sw_refusal_text", "sw_refusal")], [None, None])
    for what, words, given, call in cases():
        ran = run(lexicat, words, given)
        line, fault = ran.stderr.decode(), raised(call)
        if ran.returncode != 3 or fault is None:
            faults.compare((words, given), (fault, "the library"), (line, "the command"))
            continue
        wanted = refused(3, line)
        places = [wanted.offset, wanted.row, wanted.count]
        bits = (HAS_OFFSET, HAS_ROW, HAS_COUNT)
        places = [it if wanted.given & bit else None for it, bit in zip(places, bits)]
        of_second = what == "update" and line.endswith(" of document 3\n")
        hint = WANTED[what] if wanted.number == SHAPE else rules[wanted.number]
        of = " of the second document" if of_second else ""
        got = [fault.number, fault.offset, fault.row, fault.count, fault.of_second, fault.wanted, str(fault)]
        message = f"{library_line(line)}{of} ({hint})"
        faults.compare((words, given), got, [wanted.number, *places, of_second, hint, message])
        seen.add((wanted.number, *(it is not None for it in places), of_second))
    numbers = sorted({number for number, *_ in seen})
    named = re.search(r"^Numbers: ([\d, ]+)$", page, re.M)[1]
    faults.compare("the numbers that the page names", numbers, [int(it) for it in named.split(",")])
    print(f"{faults.asked} answers, refusals {' '.join(map(str, numbers))} in {len(seen)} forms; {faults.wrong} wrong")
    return 1 if faults.wrong else 0


if __name__ == "__main__":
    sys.exit(main(*sys.argv[1:]))
