#!/usr/bin/env python3
"""Kills programs that write one site at once, and has the disk get full under them: each edit that was
acknowledged is there, no other is that was not killed, and who reads the file reads a whole site.

    KILLS=500 DISKS=200 bindings/python/tests/tools/file/crashes.t

KILLS is how many edits are killed (25), DISKS how many disks get full (6); the moments and the sizes are
those of SEED. It takes what built.py says; a disk is a small tmpfs, which root may mount.
"""
import glob
import json
import os
import random
import subprocess
import sys
import threading
import time

sys.dont_write_bytecode = True
sys.path.insert(0, os.path.dirname(os.path.dirname(os.path.realpath(__file__))))
import built  # noqa: E402
from built import tap  # noqa: E402

WRITERS = 4
KILLS, DISKS = (int(os.environ.get(name, most)) for name, most in (("KILLS", 25), ("DISKS", 6)))
KILLED, FAILED, FULL = -9, 4, b"No space left on device"
SEED = tap.seed()


class Site:
    """A site in a folder of its own, what became of the edits of it, and what was found wrong."""

    def __init__(self, folder):
        self.path, self.faults = f"{folder}/paris.json", []
        self.ended = {KILLED: [], FAILED: [], 0: []}
        # (that the last edit took which nobody killed)
        self.seconds = 1.0
        subprocess.run(built.program("file", self.path, "new", "--site", "paris"), check=True)

    def texts(self):
        """The texts by their ids, of a site that has to be whole."""
        with open(self.path, "rb") as file:
            document = file.read()
        try:
            if not document.endswith(b'"version":2}\n'):
                raise ValueError("it has no end")
            return {it[0]: it[5] for it in json.loads(document)["cells"]}
        except ValueError as fault:
            self.faults.append(f"the site is not whole: {fault}")
            return {}

    def edit(self, id, text, seconds=None):
        """An edit, which is killed after so many seconds; returns its status."""
        words = built.program("file", self.path, "put", "--id", id, "--lang", "en", text)
        began = time.monotonic()
        with subprocess.Popen(words, stderr=subprocess.PIPE) as started:
            if seconds is not None:
                time.sleep(seconds)
                started.kill()
            said = started.stderr.read()
        status = started.returncode
        if status not in self.ended or status == FAILED and FULL not in said:
            self.faults.append(f"an edit ended with {status}: {said}")
        if seconds is None:
            self.seconds = time.monotonic() - began
        self.ended.setdefault(status, []).append(id)
        return status

    def read_while(self, threads):
        """Reads the site while threads write it, and returns how often."""
        count = 0
        for it in threads:
            it.start()
        while any(it.is_alive() for it in threads):
            acknowledged = list(self.ended[0])
            self.expect(acknowledged, self.texts())
            count += 1
            time.sleep(0.01)
        return count

    def expect(self, acknowledged, texts):
        """The edits that were acknowledged are there."""
        lost = [it for it in acknowledged if it not in texts]
        if lost:
            self.faults.append(f"acknowledged, and not there: {lost[:5]}")

    def check_end(self):
        """What there is at the end: what was acknowledged, and at most what was killed besides."""
        texts = self.texts()
        self.expect(self.ended[0], texts)
        others = set(texts) - set(self.ended[0]) - set(self.ended[KILLED])
        if others:
            self.faults.append(f"edits that failed are there: {sorted(others)[:5]}")

    def left(self):
        """The new files that are left beside the site."""
        return glob.glob(f"{self.path}.next.lexicat-????????")


def writers(work):
    """Threads that do a work each, with a number and numbers of chance of its own."""
    chances = [random.Random(f"{SEED} {at}") for at in range(WRITERS)]
    return [threading.Thread(target=work, args=it) for it in enumerate(chances)]


def killed_writers():
    """Of each two edits one is killed, within the time that an edit takes here."""
    os.mkdir(f"{built.room}/killed")
    site = Site(f"{built.room}/killed")

    def write(number, chance):
        at = 0
        while len(site.ended[KILLED]) < KILLS and not site.faults:
            at += 1
            seconds = None if at % 2 else chance.uniform(0, site.seconds)
            site.edit(f"k-{number}-{at}", f"text-{at}", seconds)

    reads = site.read_while(writers(write))
    # (a file of a user that is named in another way stays)
    kept = [f"{site.path}.next.backup", f"{site.path}.next.20261130"]
    for it in (*kept, f"{site.path}.next.lexicat-0123abcd"):
        open(it, "w", encoding="utf-8").close()
    if site.edit("last", "x") != 0 or site.left() or set(glob.glob(f"{site.path}.next*")) != set(kept):
        site.faults.append(f"beside the site there is {glob.glob(f'{site.path}.*')}")
    site.check_end()
    with open(f"{site.path}.changes", "rb") as file:
        log = file.read()
    lacked = [it for it in site.ended[0] if f'"{it}"'.encode() not in log]
    if lacked:
        site.faults.append(f"acknowledged, and not in the log: {lacked[:5]}")
    texts = site.texts()
    made = sum(it in texts for it in site.ended[KILLED])
    tap.report(
        "writers at once that are killed", site.faults[:20],
        f"{len(site.ended[KILLED])} killed, of which {made} had made their edit;"
        f" {len(site.ended[0])} acknowledged; read {reads} times",
    )


def full_disk(folder, seed):
    """Writers of a disk that gets full, until each of them failed twice."""
    chance = random.Random(f"{SEED} {seed}")
    size = f"size={chance.randrange(64, 200, 4)}k"
    subprocess.run(["mount", "-t", "tmpfs", "-o", size, "none", folder], check=True)
    try:
        site = Site(folder)

        def write(number, chance):
            failed = at = 0
            while failed < 2 and not site.faults:
                at += 1
                status = site.edit(f"d-{number}-{at}", "x" * chance.randrange(1000, 5000))
                failed += status != 0

        reads = site.read_while(writers(write))
        site.check_end()
        if site.left():
            site.faults.append(f"left: {site.left()}")
        return site.faults, len(site.ended[0]), len(site.ended[FAILED]), reads
    finally:
        subprocess.run(["umount", folder], check=True)


def full_disks():
    """Disks that get full, one behind the other."""
    name, folder = "writers at once on a disk that gets full", f"{built.room}/disk"
    os.mkdir(folder)
    words = ["mount", "-t", "tmpfs", "-o", "size=64k", "none", folder]
    if subprocess.run(words, stderr=subprocess.DEVNULL, check=False).returncode != 0:
        tap.skip(name, "no disk can be mounted")
        return
    subprocess.run(["umount", folder], check=True)
    found = [full_disk(folder, seed) for seed in range(DISKS)]
    faults = [it for faults, *_ in found for it in faults]
    made, failed, reads = (sum(it[at] for it in found) for at in (1, 2, 3))
    if not made or not failed:
        faults.append(f"{made} edits were made, and {failed} failed")
    tap.report(
        name, faults[:20],
        f"{DISKS} disks, {made} edits made and {failed} not, as each said; read {reads} times",
    )


killed_writers()
full_disks()
tap.end()
