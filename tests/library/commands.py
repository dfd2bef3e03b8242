#!/usr/bin/env python3
"""Compares what sw_command answers with what a process of the command leaves: status, both outputs,
byte for byte, and whether the input is read.

usage: commands.py LEXICAT COUNT PROGRAM..    PROGRAM is command.c as it was built, or another
       commands.py --print COUNT              prints the questions alone, for a run under valgrind
       commands.py --json LEXICAT COUNT       prints those that are texts, with what the command
                                              leaves, for bindings/browser/tests/commands.mjs

It makes COUNT command lines with inputs, always the same ones of a SEED: of all commands, right and
wrong, over several documents. With PROGRAM it also asks some of a site of megabytes, and each
question of tests/command/rows.
"""
import collections
import concurrent.futures
import glob
import itertools
import json
import os
import random
import struct
import subprocess
import sys
import tempfile

sys.dont_write_bytecode = True
FOLDER = os.path.dirname(os.path.abspath(__file__))
sys.path[:0] = [FOLDER, f"{FOLDER}/../command"]
import questions as of_library  # noqa: E402
import row_files  # noqa: E402

IDS, TEXTS, TAGS = of_library.IDS, of_library.TEXTS, of_library.TAGS
NAMES = ["paris", "tokyo", "a-1", "0000000001", "7"]
BAD_NAMES = ["Paris", "", "x" * 17, "a_b", "é"]
MOMENTS = ["0", "5", "9", "+7", "005", str(2**64 - 1)]
BAD_MOMENTS = ["-1", str(2**64), "x", "", "1.0"]
COMMANDS = (
    "pick pick new put put delete import update export missing outdated changes filter lookup lookup bundle"
    " summary delta take sync merge status replay explain help"
).split()
HELP = ["--help", "-h", "--version", "-V", "help"]
# Words that no command knows where they come, and bytes that are no text.
STRAY = [b"", b"-", b"--", b"--now", b"--more=1", b"-x", b"pick", b"status", b"\xff", b"a\xc3", b"\xed\xa0\x80", b"\xc0\x80"]

Question = collections.namedtuple("Question", "words input")
Answer = collections.namedtuple("Answer", "status output errors is_read")


def cells_of(rng, site):
    """A site's document with at most some 80 rows, of which a few are refused."""
    document = of_library.site_document(rng).replace(b'"site":"paris"', b'"site":"%s"' % site.encode())
    return of_library.spoiled(rng, document) if rng.random() < 0.08 else document


def maps_of(rng):
    """Language maps, of which some are refused."""
    maps = {}
    for _ in range(rng.randrange(4)):
        labels = maps.setdefault(of_library.one_of(rng, IDS, of_library.BAD_IDS[1:]), {})
        for _ in range(rng.randrange(1, 4)):
            label = [rng.choice(TEXTS) for _ in range(rng.choice([1, 1, 2, 3]))]
            labels[of_library.one_of(rng, TAGS, of_library.BAD_TAGS)] = label[0] if len(label) == 1 else label
    return of_library.encoded(maps)


def summary_of(rng):
    """A summary of a few keys."""
    keys = sorted({(rng.choice(IDS), rng.choice(TAGS).lower()) for _ in range(rng.randrange(6))}, key=bytes_of)
    stamps = [[*key, rng.randrange(9), rng.choice(NAMES[:3]), rng.randrange(3)] for key in keys]
    return of_library.encoded({"kind": "summary", "owner": rng.choice(NAMES[:3]), "stamps": stamps, "version": 2})


def delta_of(rng):
    """A delta of the cells of a site."""
    value = json.loads(of_library.site_document(rng))
    value["kind"], value["to"] = "delta", rng.choice(NAMES[:2])
    del value["site"]
    return of_library.encoded(dict(sorted(value.items())))


def script_of(rng):
    """A script of some steps, of which a few are refused."""
    sites = rng.randrange(1, 4)
    steps, posts = [], 0
    for _ in range(rng.randrange(12)):
        site, other = rng.randrange(sites), rng.randrange(sites + (rng.random() < 0.05))
        kind = rng.choice(["edit", "edit", "merge", "tell", "cells", "lookup", "filter", "post", "deliver"])
        if kind == "edit":
            cell = [rng.choice(IDS), rng.choice(TAGS), rng.randrange(9), rng.choice(NAMES[:3]), len(steps), ["a"]]
            steps.append(["edit", site, cell])
        elif kind == "lookup":
            steps.append(["lookup", site, rng.choice(IDS), of_library.field(rng, 0), rng.choice([None, "en"])])
        elif kind == "filter":
            steps.append(["filter", site, rng.choice(IDS), "basic", of_library.field(rng, 0)])
        elif kind == "merge":
            steps.append(["merge", site, other])
        elif kind == "post":
            steps.append(["post", site, 0])
            posts += 1
        elif kind == "deliver":
            steps.append(["deliver", rng.randrange(posts + 1)])
        else:
            steps.append([kind, site])
    return of_library.encoded({"kind": "script", "sites": sites, "steps": steps, "version": 2})


def bytes_of(key):
    return [it.encode() for it in key]


def options(rng, names):
    """Some of the options that have no value, and those of a scheme, a default and an offer."""
    words = [f"--{it}" for it in names if it in ("lenient", "widen", "all") and rng.random() < 0.25]
    if "scheme" in names and rng.random() < 0.3:
        words.append(f"--scheme={of_library.one_of(rng, ['basic', 'extended'], ['other', ''])}")
    if "default" in names and rng.random() < 0.4:
        words.append(f"--default={of_library.one_of(rng, TAGS, of_library.BAD_TAGS)}")
    if "offer" in names and rng.random() < 0.3:
        words.append(f"--offer={of_library.one_of(rng, of_library.OFFERS[2:], ['e n', 'fr, de;q=2'])}")
    return words


def arguments(rng, command):
    """The words after the command."""
    one_of = of_library.one_of
    now = f"--now={one_of(rng, MOMENTS, BAD_MOMENTS)}"
    key = [f"--id={one_of(rng, IDS, of_library.BAD_IDS)}"]
    lang = f"--lang={one_of(rng, TAGS, of_library.BAD_TAGS)}"
    field = of_library.field(rng, rng.random() < 0.3)
    if command == "pick":
        tags = [one_of(rng, TAGS, of_library.BAD_TAGS) for _ in range(rng.randint(1, 6))]
        return [*options(rng, ["scheme", "lenient", "widen", "default", "all"]), "--", field, *tags]
    if command == "new":
        return [f"--site={one_of(rng, NAMES, BAD_NAMES)}"]
    if command == "put":
        return [now, *key, lang, "--", *(rng.choice(TEXTS) for _ in range(rng.choice([1, 1, 2, 65])))]
    if command == "delete":
        return [now, *key, lang]
    if command in ("import", "update"):
        return [now]
    if command == "missing":
        return [lang]
    if command == "outdated":
        return [lang, f"--source={one_of(rng, TAGS, of_library.BAD_TAGS)}"]
    if command == "filter":
        return [*key, *options(rng, ["offer", "scheme", "lenient"]), "--", field]
    if command == "lookup":
        return [*key, *options(rng, ["scheme", "lenient", "widen", "default", "offer"]), "--", field]
    if command == "bundle":
        return [*options(rng, ["scheme", "lenient", "widen", "default", "offer"]), "--", field]
    if command in ("take", "sync", "merge"):
        return [f"--not-after={one_of(rng, MOMENTS, BAD_MOMENTS)}"] if rng.random() < 0.4 else []
    if command == "explain":
        return [str(rng.randrange(-1, 31))]
    if command == "help":
        return [rng.choice(COMMANDS + ["unknown"])] if rng.random() < 0.8 else []
    return []


def spoiled(rng, words):
    """The words with something of them changed."""
    words, way = list(words), rng.randrange(5)
    at = rng.randrange(len(words)) if words else 0
    if way == 0:
        del words[at:at + 1]
    elif way == 1:
        words[at:at] = words[at:at + 1]
    elif way == 2:
        words.insert(at, rng.choice(STRAY))
    elif way == 3:
        words.append(rng.choice(HELP).encode())
    else:
        rng.shuffle(words)
    return words


def input_of(rng, command, sites):
    """An input for the command: mostly its documents."""
    if rng.random() < 0.05:
        return rng.choice([b"", b"\n", b" ", b"\n\n", b"{}", b"\xff", b"\xef\xbb\xbf{}", b"[" * 200])
    site = rng.choice(sites)
    if command in ("changes", "sync"):
        return site + rng.choice(sites)
    if command == "merge":
        lines = site + b"".join(rng.choice(sites) for _ in range(rng.randrange(5)))
        return lines if rng.random() < 0.8 else lines[:-1]
    if command == "replay":
        return script_of(rng)
    more = {"import": maps_of, "delta": summary_of, "take": delta_of}.get(command)
    if command == "update":
        return site + maps_of(rng) + maps_of(rng)
    return site + more(rng) if more else site


def questions(count):
    """The command lines, each with its input."""
    rng = random.Random(f"{of_library.SEED} commands")
    sites = [cells_of(rng, rng.choice(NAMES[:3])) for _ in range(40)]
    asked = []
    for _ in range(count):
        command = rng.choice(COMMANDS)
        words = [it.encode() for it in (command, *arguments(rng, command))]
        if rng.random() < 0.15:
            words = spoiled(rng, words)
        asked.append(Question(words, input_of(rng, command, sites)))
    return asked


def large():
    """A few questions of a site of some megabytes."""
    rows = [[f"m{at:06}", "en", 5, "paris", at, ["a label of a message"]] for at in range(40000)]
    site = of_library.encoded({"cells": rows, "kind": "site", "site": "paris", "version": 2})
    lines = ["status", "export", "summary", "put --now=9 --id=m000777 --lang=fr x", "lookup --id=m039999 en"]
    other = site.replace(b'["m', b'["n').replace(b'"paris"', b'"tokyo"')
    return [*(Question(it.encode().split(), site) for it in lines), Question([b"sync"], site + other)]


def rows():
    """The questions of tests/command/rows, the first words of each, but those whose input fails."""
    found = []
    for file in sorted(glob.glob(os.path.join(row_files.FOLDER, "*.rows"))):
        found += row_files.read(file)[0]
    texts = [(it, b"" if it.text == b"-" else it.text.replace(b" / ", b"\n")) for it in found]
    return [Question(it.words[0], text) for it, text in texts if it.status != 4]


def written(asked):
    """The questions as the programs read them: counts and lengths before what they count."""
    for it in asked:
        yield struct.pack("<I", len(it.words))
        for word in it.words:
            yield struct.pack("<I", len(word)) + word
        yield struct.pack("<Q", len(it.input)) + it.input


def answers_in(file):
    """The answers of a program."""
    while head := file.read(8):
        status, is_read = struct.unpack("<iI", head)
        output, errors = (file.read(*struct.unpack("<Q", file.read(8))) for _ in range(2))
        yield Answer(status, output, errors, bool(is_read))


def by_process(lexicat, asked):
    """What a process of the command leaves. Of an empty input it is seen by one that cannot be read
    whether it is read."""
    with tempfile.TemporaryFile() as file:
        file.write(asked.input)
        file.seek(0)
        ran = subprocess.run([lexicat, *asked.words], stdin=file, capture_output=True, check=False)
        is_read = os.lseek(file.fileno(), 0, os.SEEK_CUR) > 0
    if not asked.input:
        folder = os.open(FOLDER, os.O_RDONLY)
        again = subprocess.run([lexicat, *asked.words], stdin=folder, capture_output=True, check=False)
        os.close(folder)
        is_read = again.stderr == b"refused 24: read fault\n"
    return Answer(ran.returncode, ran.stdout, ran.stderr, is_read)


def shown(answer):
    if answer is None:
        return "nothing"
    cut = answer._replace(output=answer.output[:200], errors=answer.errors[:200])
    return str(tuple(cut))


def compare(lexicat, count, program):
    """Asks both, and prints where they differ. Returns how often they do."""
    asked = questions(count) + large() + rows()
    with tempfile.TemporaryFile() as file:
        file.writelines(written(asked))
        file.seek(0)
        with subprocess.Popen(program, stdin=file, stdout=subprocess.PIPE) as asking, \
                concurrent.futures.ThreadPoolExecutor(os.cpu_count()) as pool:
            known = pool.map(lambda it: by_process(lexicat, it), asked)
            faults, statuses = 0, collections.Counter()
            for it, wanted, got in itertools.zip_longest(asked, known, answers_in(asking.stdout)):
                if it is None:
                    break
                statuses[wanted.status] += 1
                if got == wanted:
                    continue
                faults += 1
                if faults <= 10:
                    print(f"commands: {str(it.words)[:300]} over {it.input[:200]}")
                    print(f"  the process: {shown(wanted)}\n  the call: {shown(got)}")
    each = ", ".join(f"{statuses[it]} with {it}" for it in sorted(statuses))
    print(f"{len(asked)} command lines ({each}); {faults} differ, and the program ended with {asking.returncode}")
    return faults or asking.returncode


def texts(lexicat, count):
    """The questions that are texts, with their answers."""
    for it in questions(count):
        answer = by_process(lexicat, it)
        try:
            words, given = [word.decode() for word in it.words], it.input.decode()
        except UnicodeDecodeError:
            continue
        wanted = {"status": answer.status, "output": answer.output.decode(), "errors": answer.errors.decode()}
        yield {"words": words, "input": given, "wanted": wanted}


def main(words):
    if words[0] == "--json":
        print(json.dumps(list(texts(words[1], int(words[2])))))
        return 0
    if words[0] == "--print":
        sys.stdout.buffer.writelines(written(questions(int(words[1]))))
        return 0
    lexicat, count, *program = words
    return 1 if compare(lexicat, int(count), program) else 0


if __name__ == "__main__":
    sys.exit(main(sys.argv[1:]))
