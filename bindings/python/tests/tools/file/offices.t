#!/usr/bin/env python3
"""Tries that nothing that anybody typed is lost unseen: two offices edit the same 50 labels offline,
with exchanges, deltas and PO files that come back late, and backups that are put back, in random
order. At the end each text that was typed, and not refused, is in a site or in a log.

    SEEDS=500 bindings/python/tests/tools/file/offices.t

SEEDS is how many orders are tried (40); SEED is the first of them. It takes what built.py says.
"""
import os
import random
import re
import sys
import tempfile
import time

sys.dont_write_bytecode = True
sys.path.insert(0, os.path.dirname(os.path.dirname(os.path.realpath(__file__))))
from built import tap  # noqa: E402
from silkwaram.tools import file as lexicat_file  # noqa: E402
from silkwaram.tools import po  # noqa: E402
from silkwaram.tools._command import run  # noqa: E402

LABELS = 50
EDITS, EXCHANGES, PO_FILES, RESTORES = 60, 5, 10, 2
LANG, SOURCE = "de", "en"
HOUR = 3_600_000


class Clock:
    """The clock of both offices, in milliseconds."""

    now = 1_700_000_000_000


time.time_ns = lambda: Clock.now * 1_000_000


class Office:
    """A site in a file, with the copies and the files that were made of it."""

    def __init__(self, name):
        self.name, self.path, self.count = name, f"{name}.json", 1
        self.backups, self.sent = [], []

    def document(self):
        """The bytes of the site."""
        with open(self.path, "rb") as file:
            return file.read()


class Week:
    """What two offices do in a week, in the order of a seed."""

    def __init__(self, seed):
        self.random, self.typed, self.refusals = random.Random(seed), [], 0
        self.deltas = []
        self.offices = [Office("anna"), Office("ben")]
        for it in self.offices:
            self.expect(0, it.path, "new", "--site", it.name)
        first = self.offices[0].path
        for at in range(LABELS):
            self.run(first, "put", "--id", f"m{at}", "--lang", SOURCE, f"Source {at}")
        self.expect(0, first, "sync", self.offices[1].path)

    def run(self, *words):
        """Runs lexicat-file, and returns its status."""
        Clock.now += self.random.randrange(1, HOUR)
        return lexicat_file.main(list(words))

    def expect(self, wanted, *words):
        """The same, of which the status is known."""
        status = self.run(*words)
        if status != wanted:
            raise AssertionError(f"lexicat-file {' '.join(words)}: status {status}, not {wanted}")

    def type(self, status_of):
        """Somebody types a text, which counts if it is not refused."""
        text = f"text {len(self.typed) + self.refusals}."
        if status_of(text) == 0:
            self.typed.append(text)
        else:
            self.refusals += 1

    def edit(self, office):
        id = f"m{self.random.randrange(LABELS)}"
        self.type(lambda text: self.run(office.path, "put", "--id", id, "--lang", LANG, text))

    def exchange(self, office):
        """Both sites are merged, or a delta goes out, which comes late."""
        other = self.other(office)
        if self.random.random() < 0.5:
            self.expect(0, office.path, "sync", other.path)
            return
        ran = run(["summary"], other.document())
        ran = run(["delta"], office.document().rstrip(b"\n") + b"\n" + ran.output)
        self.deltas.append((other, ran.output))

    def take_late(self):
        """A delta comes that went out long ago. It may be for a site that is no more."""
        if self.deltas:
            to, delta = self.deltas.pop(self.random.randrange(len(self.deltas)))
            with open("late.delta", "wb") as file:
                file.write(delta)
            self.run(to.path, "take", "late.delta")

    def send_po(self, office):
        office.sent.append(po.po_of(office.document(), LANG, SOURCE).decode())

    def receive_po(self, office):
        """A PO file comes back, in which some texts are edited."""
        if not office.sent:
            return
        file = office.sent.pop(self.random.randrange(len(office.sent)))
        at = self.random.randrange(LABELS)

        def status_of(text):
            made, count = re.subn(
                rf'(msgid "Source {at}"\nmsgstr )"[^"]*"', rf'\1"{text}"', file.replace("#, fuzzy\n", "")
            )
            assert count == 1, file
            old, new, said = po.edits_of_file(office.document(), made.encode(), LANG, SOURCE)
            for name, maps in (("old", old), ("new", new)):
                with open(name, "wb") as written:
                    written.write(maps)
            status = self.run(office.path, "update", "old", "new")
            return status if not said else 7

        self.type(status_of)

    def back_up(self, office):
        office.backups.append(office.document())

    def put_back(self, office):
        """Somebody copies a backup over the site. If it lacks an edit of its own, no edit is made until
        it has a new name."""
        if not office.backups:
            return
        former, backup = office.document(), self.random.choice(office.backups)
        with open(office.path, "wb") as file:
            file.write(backup)
        self.edit(office)
        if office.document() != backup and own_edits(former) > own_edits(backup):
            raise AssertionError(f"{office.path} was put back, and was edited")
        if office.document() == backup:
            made, name = f"{office.name}{office.count}.json", f"{office.name}-{office.count}"
            self.expect(0, made, "restore", office.path, "--site", name, self.other(office).path)
            office.path, office.count, office.backups = made, office.count + 1, []

    def other(self, office):
        """The other office."""
        return self.offices[1 - self.offices.index(office)]

    def pass_by(self):
        """The week passes."""
        acts = [self.edit] * EDITS + [self.exchange] * EXCHANGES + [self.put_back] * RESTORES
        acts += [self.send_po, self.receive_po] * PO_FILES + [self.back_up] * (2 * RESTORES)
        acts += [lambda _: self.take_late()] * EXCHANGES
        self.random.shuffle(acts)
        for act in acts:
            act(self.random.choice(self.offices))

    def lost(self):
        """The texts that are neither in a site nor in a log."""
        kept = b""
        for name in os.listdir("."):
            if name.endswith((".json", ".changes")):
                with open(name, "rb") as file:
                    kept += file.read()
        return [it for it in self.typed if f'"{it}"'.encode() not in kept]


def own_edits(document):
    """How many cells a site has that it wrote itself."""
    name = run(["status"], document).output.split()[1]
    return document.count(b',"' + name + b'",')


def week(seed):
    """The faults of a week, in a folder of its own."""
    here = os.getcwd()
    with tempfile.TemporaryDirectory() as room:
        os.chdir(room)
        try:
            made = Week(seed)
            made.pass_by()
            lost = made.lost()
            if not made.typed:
                return ["nothing was typed"], 0
            return [f"seed {seed}: {it} is in no site and in no log" for it in lost], len(made.typed)
        except AssertionError as fault:
            return [f"seed {seed}: {fault}"], 0
        finally:
            os.chdir(here)


def weeks(first, count):
    """Tries so many weeks, with what is said on standard error out of sight."""
    said, nowhere = os.dup(2), os.open(os.devnull, os.O_WRONLY)
    os.dup2(nowhere, 2)
    faults, typed = [], 0
    try:
        for seed in range(first, first + count):
            found, number = week(seed)
            faults, typed = faults + found, typed + number
    finally:
        os.dup2(said, 2)
    return faults, typed


SEEDS = int(os.environ.get("SEEDS", "40"))
FAULTS, TYPED = weeks(tap.seed(), SEEDS)
tap.report(
    "each text that was typed is in a site, in a log, or was refused", FAULTS[:20],
    f"{SEEDS} weeks, {TYPED} texts",
)
tap.end()
