#!/usr/bin/env python3
"""Exchanges of two sites by `summary --labels`, `delta` and `take`, in which one stamp may have two
labels: each ends as a `merge` of the two does. By `summary` alone it does not, which is the fault
that digests show.

What each command has to print is reckoned here, from the rules of the formats alone, digests too.

Takes build/lexicat, or the command that LEXICAT names. The sites are made at random by SEED.
CHECKED_EXCHANGES is how many exchanges are made.
"""
import concurrent.futures
import os
import random
import subprocess
import sys

HERE = os.path.dirname(os.path.realpath(__file__))
sys.dont_write_bytecode = True
sys.path[:0] = [HERE, f"{HERE}/../lib"]
import tap  # noqa: E402
from counting import LEXICAT  # noqa: E402
from reckoned import clash, document, joined, lacked, summary  # noqa: E402

EXCHANGES = int(os.environ.get("CHECKED_EXCHANGES", "10000"))
NAMES = "lima", "paris", "tokyo"
KEYS = [(message, language) for message in ("a", 'b"', "c") for language in ("de", "en")]
LETTERS = 'ab"\\\b\f\n\r\t\x01\x1f\x7f/<& é\u2028日😀'


def some_label(chance):
    if chance.random() < 0.2:
        return None
    count = chance.choice((1, 1, 1, 2, 5))
    return ["".join(chance.choices(LETTERS, k=chance.randrange(6))) for _ in range(count)]


def some_cells(chance, before=()):
    """Cells with few stamps, so that two sites often have one; those before are there in part, some
    with another label."""
    cells = {}
    for key in KEYS:
        if key in before and chance.random() < 0.7:
            stamp, label = before[key]
            cells[key] = stamp, some_label(chance) if chance.random() < 0.1 else label
        elif chance.random() < 0.6:
            stamp = chance.randrange(3), chance.choice(NAMES), chance.randrange(2)
            cells[key] = stamp, some_label(chance)
    return cells


def checked(cells, known):
    """What is lacked by stamps and labels."""
    return lacked(cells, known) | {
        key: cell
        for key, cell in cells.items()
        if key in known and known[key][0] == cell[0] and known[key][1] != cell[1]
    }


def fault_of(exchange):
    """What a command prints that it has not to print, or None."""
    own, other = exchange
    site = document(own, kind="site", site="paris")
    sender = document(other, kind="site", site="tokyo")
    ends = clash(own, other) or document(joined(own, other), kind="site", site="paris")
    told = summary(own, "paris", True)
    delta = document(checked(other, own), kind="delta", to="paris")
    plain = document(lacked(other, own), kind="delta", to="paris")
    for words, given, wanted in (
        (["summary", "--labels"], site, told),
        (["delta"], sender + told, delta),
        (["delta"], sender + summary(own, "paris", False), plain),
        (["take"], site + delta, ends),
        (["merge"], site + sender, ends),
    ):
        ran = subprocess.run([LEXICAT, *words], input=given.encode(), capture_output=True)
        said = ran.returncode, ran.stdout.decode(), ran.stderr.decode()
        expected = (3, "", wanted) if wanted.startswith("refused") else (0, wanted, "")
        if said != expected:
            return f"{words}: {given}{said} and not {expected}"
    return None


chance = random.Random(tap.seed())
exchanges = []
for _ in range(EXCHANGES):
    own = some_cells(chance)
    exchanges.append((own, some_cells(chance, own)))
refused = sum(bool(clash(own, other)) for own, other in exchanges)
with concurrent.futures.ThreadPoolExecutor(os.cpu_count()) as pool:
    faults = [it for it in pool.map(fault_of, exchanges) if it]
if not EXCHANGES // 10 < refused < EXCHANGES * 9 // 10:
    faults.append(f"{refused} of {EXCHANGES} exchanges have one stamp of two labels")
said = f"{EXCHANGES} exchanges, {refused} refused by 13"
tap.report("each checked delta ends as a merge does", faults[:5], said)
tap.end()
