#!/usr/bin/env python3
"""Asks `pick` random questions by small tables of fallbacks, with weights, refusals, defaults and
`--widen`. Each answer has to be that of fallbacks_oracle.py, which is asked the rule's examples.

Takes build/lexicat, or the command that LEXICAT names. The questions are made at random by SEED.
FALLBACKS_QUESTIONS is how many there are.
"""
import collections
import os
import random
import subprocess
import sys

HERE = os.path.dirname(os.path.realpath(__file__))
sys.dont_write_bytecode = True
sys.path[:0] = [HERE, f"{HERE}/../lib"]
import tap  # noqa: E402
from counting import LEXICAT  # noqa: E402
from fallbacks_oracle import pick  # noqa: E402

QUESTIONS = int(os.environ.get("FALLBACKS_QUESTIONS", "2000"))
TAGS = ("de", "de-AT", "de-a-bb", "de-a-bb-cc", "de-x-a-b", "de-x-a", "en", "en-US", "en-GB",
        "en-001", "nb", "no", "x-de", "zh", "zh-Hant", "zh-Hant-TW", "zh-TW")
RANGES = (*TAGS, *TAGS, "*", "de-a", "en-us-1", "zh-Hant-TW-x-a")
WEIGHTS = (1000, 1000, 1000, 900, 500, 500, 1, 0, 0)
GAPS = ("", "", "", " ", "\t", "\r\n", " \n ")
TABLE = {"zh-tw": "zh-hant", "no": "nb", "en-au": "en-001", "en-001": "en-gb", "en": "en-us"}
# The table, ranges, tags and answer of each example of the rule.
EXAMPLES = (
    (TABLE, "zh-tw", "zh zh-hant", "matched zh-hant"),
    (TABLE, "zh-tw", "zh", "matched zh"),
    (TABLE, "no da", "da nb", "matched nb"),
    (TABLE, "en", "en-au en-us", "matched en-us"),
    (TABLE, "en-au", "en en-gb", "matched en-gb"),
    (TABLE, "en-nz", "en-gb en-us", "matched en-us"),
    ({"en": "fr", "fr": "en"}, "en", "de", "nothing"),
)
# What has to be among the answers: the kind of the line, and what changes it.
KINDS = {(line, changed) for line in ("matched", "default", "nothing") for changed in ("", "table")}
KINDS |= {("matched", "widen")}


def example(table, ranges, tags, wanted):
    found = pick(table, [(it, 1000) for it in ranges.split()], tags.split())
    return [] if found == wanted else [f"{ranges} over {tags}: {found}, not {wanted}"]


class Question:
    """A table, a field, tags, and options, made at random."""

    def __init__(self, chance):
        self.chance = chance
        lefts = chance.sample(TAGS, chance.randrange(10))
        self.elements = [(it, chance.choice(TAGS)) for it in lefts]
        ranges = chance.choices((*RANGES, *lefts * 2), k=chance.randint(1, 3))
        self.items = [(it, chance.choice(WEIGHTS)) for it in ranges]
        self.tags = chance.choices((*TAGS, *TAGS, "@none"), k=chance.randint(1, 3))
        self.default = chance.choice((None, *self.tags, "fr"))
        self.widen = chance.random() < 0.3

    def cased(self, text):
        """The text in some case: `@none` is in one alone."""
        return text if text == "@none" else self.chance.choice((text, text.lower(), text.upper()))

    def words(self):
        """The words of the command."""
        gap = lambda: self.chance.choice(GAPS)
        table = ",".join(f"{gap()}{self.cased(left)}={self.cased(right)}{gap()}"
                         for left, right in self.elements) + gap()
        weight = lambda it: self.chance.choice(("", ";q=1")) if it == 1000 else f";q={it / 1000}"
        field = ", ".join(f"{self.cased(named)}{weight(it)}" for named, it in self.items)
        default = ["--default", self.cased(self.default)] if self.default else []
        options = [*default, *["--widen"] * self.widen, "--fallbacks", table]
        return ["pick", *options, "--", field, *map(self.cased, self.tags)]

    def answer(self, by_table=True, widen=True):
        """What the oracle answers, with or without the table and `--widen`."""
        table = {left.lower(): right.lower() for left, right in self.elements if by_table}
        items = [(named.lower(), weight) for named, weight in self.items]
        default = self.default and self.default.lower()
        tags = [it.lower() for it in self.tags]
        return pick(table, items, tags, default, widen and self.widen)

    def kind(self):
        """The kind of the line, and what changes it."""
        wanted = self.answer()
        changed = ("table" if self.answer(by_table=False) != wanted else
                   "widen" if self.answer(widen=False) != wanted else "")
        return wanted.split()[0], changed


def compared(chance):
    """The questions that are answered otherwise, and how many there are of each kind."""
    faults, kinds = [], collections.Counter()
    for _ in range(QUESTIONS):
        question = Question(chance)
        wanted, words = question.answer(), question.words()
        said = subprocess.run([LEXICAT, *words], capture_output=True, close_fds=False, check=False)
        status = 1 if wanted == "nothing" else 0
        if (said.stdout.decode(), said.returncode) != (f"{wanted}\n", status):
            found = f"{said.stdout} {said.stderr}, status {said.returncode}"
            faults.append(f"{words}: {found}, and {wanted} is wanted")
        kinds[question.kind()] += 1
    return faults, kinds


def main():
    tap.needs(LEXICAT)
    for place, it in enumerate(EXAMPLES):
        tap.check(f"example {place + 1} of the rule", example, *it)
    faults, kinds = compared(random.Random(f"{tap.seed()} fallbacks"))
    tap.report(f"{QUESTIONS} questions are answered by the rule", faults[:20],
               "\n".join(f"{count} {' '.join(it)}" for it, count in sorted(kinds.items())))
    tap.note(f"differences: {len(faults)}")
    lacking = sorted(KINDS - set(kinds))
    tap.report("each kind of answer is among them", [f"there is no {it}" for it in lacking])
    tap.end()


if __name__ == "__main__":
    main()
