#!/usr/bin/env python3
"""Makes edits and exchanges by the library and by the command, and compares each step.

usage: edits.py LEXICAT COUNT    (SILKWARAM_LIBRARY names the library, PYTHONPATH the package)

It makes COUNT sequences, always the same ones of a SEED, of some steps at three open sites. After
each step the document of the site that was edited has to be, byte for byte, what the command makes
of the document before; where one refuses, the other has to refuse with the same number and places,
and the site stays. Some edits are made in place, some beside a share, which has to keep its
document. Now and then a site is put back to an older document, and all that is asked of a site is
compared with what the command prints.
"""
import concurrent.futures
import json
import os
import random
import re
import subprocess
import sys

sys.dont_write_bytecode = True
from commands import maps_of  # noqa: E402
from questions import BAD_IDS, BAD_TAGS, IDS, SEED, TAGS, TEXTS, one_of  # noqa: E402

from silkwaram import Refused, Site  # noqa: E402

NAMES = ["paris", "tokyo", "a-1"]
LAST_TIME = 2**64 - 1
STEPS = ["put"] * 6 + ["delete"] * 2 + ["import", "update"] + ["take"] * 3 + ["merge"] * 2 + ["put_back"]
FAULT = re.compile(
    rb"refused (\d+): .*?(?: at (\d+))?(?: in row (\d+))?(?: of document (\d+))?\n$"
)
# The document that the command counts as the second one of a call: of `update`, after the site.
SECOND = b"3"


class Command:
    """The command, run over documents."""

    def __init__(self, program):
        self.program = program

    def __call__(self, *words, documents=b""):
        """What it prints, or (number, offset, row, whether it is of the second) where it refuses.
        """
        run = subprocess.run(
            [self.program, *words], input=documents, stdout=subprocess.PIPE, stderr=subprocess.PIPE, check=False
        )
        if run.returncode == 3:
            number, offset, row, document = FAULT.match(run.stderr).groups()
            return int(number), offset and int(offset), row and int(row), document == SECOND
        if run.returncode > 1:
            sys.exit(f"{words} ended with {run.returncode}: {run.stderr.decode()}")
        return run.stdout


def refusal_of(call):
    """(number, offset, row, whether it is of the second) where a call is refused, or None."""
    try:
        call()
    except Refused as fault:
        return fault.number, fault.offset, fault.row, fault.of_second
    return None


def words_of(name, word):
    """An option, also where the word begins with a hyphen."""
    return f"--{name}={word}"


class Sequence:
    """Three sites, each open and as a document."""

    def __init__(self, command, seed):
        self.command, self.rng = command, random.Random(f"{SEED} sequence {seed}")
        self.sites = [Site.new(name) for name in NAMES]
        self.documents = [site.to_bytes() for site in self.sites]
        self.older = list(self.documents)
        self.now = 1

    def fault(self, what, *more):
        raise AssertionError(" ".join(str(it)[:400] for it in (what, *more)))

    def edited(self, place, call, wanted):
        """Makes an edit of a site, whose document has to be this one then, or refused so.

        Where it is made beside a share, this one keeps the document.
        """
        share = self.sites[place].share() if self.rng.random() < 0.3 else None
        before = self.documents[place]
        refused = refusal_of(call)
        if refused is None and isinstance(wanted, bytes):
            self.documents[place] = wanted
        elif refused != wanted:
            self.fault("wanted", wanted, "not", refused)
        if self.sites[place].to_bytes() != self.documents[place]:
            self.fault("another document:", self.sites[place].to_bytes(), self.documents[place])
        if share is not None:
            if share.to_bytes() != before:
                self.fault("a share that changed:", share.to_bytes(), "and not", before)
            share.close()

    def moment(self):
        self.now += self.rng.choice([0, 0, 1, 5])
        return LAST_TIME if self.rng.random() < 0.002 else self.now

    def step(self, kind):
        rng, place = self.rng, self.rng.randrange(3)
        other = (place + rng.randrange(1, 3)) % 3
        site, document, now = self.sites[place], self.documents[place], self.moment()
        if kind == "put":
            name, lang, text = one_of(rng, IDS, BAD_IDS), one_of(rng, TAGS, BAD_TAGS), rng.choice(TEXTS)
            words = ["put", f"--now={now}", words_of("id", name), words_of("lang", lang), "--", text]
            self.edited(place, lambda: site.put(name, lang, text, now), self.command(*words, documents=document))
        elif kind == "delete":
            name, lang = one_of(rng, IDS, BAD_IDS), one_of(rng, TAGS, BAD_TAGS)
            words = ["delete", f"--now={now}", words_of("id", name), words_of("lang", lang)]
            self.edited(place, lambda: site.delete(name, lang, now), self.command(*words, documents=document))
        elif kind == "import":
            maps = maps_of(rng)
            wanted = self.command("import", f"--now={now}", documents=document + maps)
            self.edited(place, lambda: site.import_maps(maps, now), wanted)
        elif kind == "update":
            old, new = maps_of(rng), maps_of(rng)
            wanted = self.command("update", f"--now={now}", documents=document + old + new)
            self.edited(place, lambda: site.update(old, new, now), wanted)
        elif kind == "put_back":
            site.reload(self.older[place])
            self.documents[place], self.older[place] = self.older[place], document
        elif kind == "merge":
            words, checks = self.checks()
            wanted = self.command("merge", *words, documents=document + self.documents[other])
            self.edited(place, lambda: site.merge(self.sites[other], **checks), wanted)
        else:
            addressee = place if rng.random() < 0.9 else other
            shown = self.sites[addressee].summary(labels=rng.random() < 0.5)
            delta = self.sites[other].delta_for(shown)
            words, checks = self.checks()
            wanted = self.command("take", *words, documents=document + delta)
            self.edited(place, lambda: site.take(delta, **checks), wanted)

    def checks(self):
        """What an exchange tests: the words of the command, and those of the library."""
        words, checks = [], {}
        if self.rng.random() < 0.3:
            checks["not_after"] = max(self.now - 3, 1)
            words.append(f"--not-after={checks['not_after']}")
        if self.rng.random() < 0.5:
            checks["check_own"] = True
            words.append("--check-own")
        return words, checks

    def a_language(self, document):
        """A language, mostly one that a site has."""
        held = sorted({row[1] for row in json.loads(document)["cells"]})
        return self.rng.choice(held if held and self.rng.random() < 0.8 else TAGS)

    def compare(self):
        """All that is asked of a site and of two."""
        one, other = self.rng.sample(range(3), 2)
        site, document = self.sites[one], self.documents[one]
        lang, source = self.a_language(document), self.a_language(document)
        with site.share() as share:
            pairs = [
                ("summary", share.summary(), ["summary"], document),
                ("summary", share.summary(labels=True), ["summary", "--labels"], document),
                ("export", share.export(), ["export"], document),
                ("missing", share.missing(lang), ["missing", "--lang", lang], document),
                (
                    "outdated",
                    share.outdated(lang, source),
                    ["outdated", "--lang", lang, "--source", source],
                    document,
                ),
                (
                    "delta",
                    share.delta_for(self.sites[other].summary()),
                    ["delta"],
                    document + self.sites[other].summary(),
                ),
                (
                    "changes",
                    [
                        [it.id, it.language, *(cell and [*cell.stamp, cell.texts] for cell in it[2:])]
                        for it in share.changes(self.sites[other])
                    ],
                    ["changes"],
                    document + self.documents[other],
                ),
            ]
            status = share.status()
        for what, got, words, documents in pairs:
            wanted = self.command(*words, documents=documents)
            if what in ("export", "missing", "outdated"):
                wanted = json.loads(wanted)
            elif what == "changes":
                wanted = [json.loads(line) for line in wanted.split(b"\n")[1:-1]]
            if got != wanted:
                self.fault(what, got, "and not", wanted)
        last = "none" if status.last is None else "{} {} {}".format(*status.last)
        line = f"site {status.site} cells {status.cells} labels {status.labels} last {last}\n"
        if line.encode() != self.command("status", documents=document):
            self.fault("status", line)

    def run(self):
        """Some steps, each of which may be refused; how many there were."""
        steps = self.rng.randrange(4, 16)
        for _ in range(steps):
            self.step(self.rng.choice(STEPS))
        if self.rng.random() < 0.2:
            self.compare()
        for site in self.sites:
            site.close()
        return steps


def several(program, seeds):
    """How many steps these sequences had, and what was wrong of them."""
    steps, wrong = 0, []
    for seed in seeds:
        try:
            steps += Sequence(Command(program), seed).run()
        except AssertionError as fault:
            wrong.append(f"sequence {seed}: {fault}")
    return steps, wrong


def main():
    program, count = sys.argv[1], int(sys.argv[2])
    jobs = os.cpu_count() or 1
    parts = [range(at, count, 8 * jobs) for at in range(8 * jobs)]
    with concurrent.futures.ProcessPoolExecutor(jobs) as pool:
        results = list(pool.map(several, [program] * len(parts), parts))
    wrong = [line for _, lines in results for line in lines]
    print("\n".join(wrong[:20]))
    print(f"{count} sequences of {sum(steps for steps, _ in results)} edits and exchanges, {len(wrong)} wrong")
    if wrong or sum(steps for steps, _ in results) < 4 * count:
        sys.exit(1)


main()
