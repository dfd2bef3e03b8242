#!/usr/bin/env python3
"""Runs of three sites that edit and exchange by `take`, `sync` and `merge` with `--check-own`, in
which deltas come late and again, and a site is put back to an older copy of itself at random.

What each exchange has to print is reckoned here, from the rules of the formats alone: a cell is
replaced by one with a greater stamp, and a stamp is the next that its site may use. So an exchange
that brings an edit which its taker made and lacks is refused by 30, with the row that this program
finds; and in a run in which no site was put back none is.

Takes build/lexicat, or the command that LEXICAT names. The runs are made at random by SEED.
PUT_BACK_EXCHANGES is how many exchanges are made of each of the two kinds of runs.
"""
import concurrent.futures
import os
import random
import subprocess
import sys

HERE = os.path.dirname(os.path.realpath(__file__))
sys.dont_write_bytecode = True
sys.path[:0] = [HERE, f"{HERE}/../lib"]
import tap  # noqa: E402
from counting import LEXICAT  # noqa: E402
from reckoned import clash, document, joined, lacked  # noqa: E402

EXCHANGES = int(os.environ.get("PUT_BACK_EXCHANGES", "5000"))
NAMES = ("lima", "paris", "tokyo")
KEYS = [(message, language) for message in ("a", "b", "c") for language in ("de", "en")]
STEPS = 40


class Site:
    """A site: its name, and of each key a stamp, as (time, site, count), and a label."""

    def __init__(self, name):
        self.name, self.cells = name, {}

    def edit(self, chance, now):
        last = max((stamp for stamp, _ in self.cells.values()), default=None)
        if last is None or now > last[0]:
            stamp = (now, self.name, 0)
        elif self.name == last[1]:
            stamp = (last[0], self.name, last[2] + 1)
        else:
            stamp = (last[0] + (self.name < last[1]), self.name, 0)
        label = None if chance.random() < 0.2 else [f"{chance.randrange(10**6)}"]
        self.cells[chance.choice(KEYS)] = (stamp, label)

    def text(self):
        return document(self.cells, kind="site", site=self.name)


def first_lacked(name, cells, rows):
    """The first row that is an edit of the site of this name and that the cells lack, or None."""
    for row, key in enumerate(sorted(rows)):
        stamp = rows[key][0]
        if stamp[1] == name and (key not in cells or cells[key][0] < stamp):
            return row
    return None


def missing(row, number):
    return f"refused 30: an edit of this site is missing here in row {row} of document {number}\n"


def take(taker, rows):
    given = taker.text() + document(rows, kind="delta", to=taker.name)
    row = first_lacked(taker.name, taker.cells, rows)
    if row is not None:
        return given, missing(row, 2)
    refused = clash(taker.cells, rows)
    if refused:
        return given, refused
    taker.cells = joined(taker.cells, rows)
    return given, taker.text()


def sync(first, second):
    given = first.text() + second.text()
    row = first_lacked(second.name, second.cells, first.cells)
    if row is not None:
        return given, missing(row, 1)
    row = first_lacked(first.name, first.cells, second.cells)
    if row is not None:
        return given, missing(row, 2)
    refused = clash(first.cells, second.cells)
    if refused:
        return given, refused
    first.cells = joined(first.cells, second.cells)
    second.cells = dict(first.cells)
    return given, first.text() + second.text()


def merge(first, *others):
    given = "".join(site.text() for site in (first, *others))
    cells = first.cells
    for number, other in enumerate(others, 2):
        row = first_lacked(first.name, cells, other.cells)
        if row is not None:
            return given, missing(row, number)
        refused = clash(cells, other.cells)
        if refused:
            return given, refused
        cells = joined(cells, other.cells)
    first.cells = cells
    return given, first.text()


def run(chance, is_put_back):
    """The exchanges of one run: the command, its input, and what it has to print. A delta may come
    late, and again."""
    sites = [Site(name) for name in NAMES]
    copies, posts = [[] for _ in NAMES], [[] for _ in NAMES]
    for now in range(1, STEPS):
        at, other, third = chance.sample(range(len(sites)), len(sites))
        step = chance.random()
        if step < 0.45:
            copies[at].append(dict(sites[at].cells))
            sites[at].edit(chance, now // 3)
        elif step < 0.53 and is_put_back and copies[at]:
            sites[at].cells = dict(chance.choice(copies[at]))
        elif step < 0.65:
            posts[at].append(lacked(sites[other].cells, sites[at].cells))
        elif step < 0.8:
            if posts[at]:
                yield "take", *take(sites[at], chance.choice(posts[at]))
        elif step < 0.9:
            yield "sync", *sync(sites[at], sites[other])
        else:
            yield "merge", *merge(sites[at], sites[other], sites[third])


def fault_of(exchange):
    way, given, wanted = exchange
    words = [LEXICAT, way, "--check-own"]
    ran = subprocess.run(words, input=given, capture_output=True, text=True, check=False)
    is_refused = wanted.startswith("refused")
    expected = (3, "", wanted) if is_refused else (0, wanted, "")
    said = (ran.returncode, ran.stdout, ran.stderr)
    return None if said == expected else f"{way}: {given}{said} and not {expected}"


def exchanges_of(chance, is_put_back):
    made = []
    while len(made) < EXCHANGES:
        made += run(chance, is_put_back)
    return made


chance = random.Random(tap.seed())
for is_put_back, name in ((False, "no site is put back"), (True, "sites are put back")):
    made = exchanges_of(chance, is_put_back)
    refused = sum(wanted.startswith("refused 30") for _, _, wanted in made)
    with concurrent.futures.ThreadPoolExecutor(os.cpu_count()) as pool:
        faults = [it for it in pool.map(fault_of, made) if it]
    if bool(refused) != is_put_back:
        faults.append(f"{refused} exchanges have to be refused by 30")
    said = f"{len(made)} exchanges, {refused} refused by 30"
    tap.report(f"exchanges in which {name}", faults[:5], said)
tap.end()
