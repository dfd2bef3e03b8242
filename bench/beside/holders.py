#!/usr/bin/env python3
"""What a process holds for each cell of an open site: prints bytes of its own, and of its file.

usage: holders.py KIND CELLS FOLDER
           KIND is one of HOLDERS below; files are made in that folder

A small site is opened first, so that what a library takes but once does not count. Then the site is
opened, and the label of each cell is asked for once. Its own memory is what the kernel calls
anonymous (RssAnon): what is mapped from a file is not in it. What was freed is given back first.
"""
import ctypes
import gc
import json
import os
import sqlite3
import struct
import sys

from loads import cells, site

WIDTH, FEW = 28, 1000
TABLE = ("create table cells (id text, lang text, time int, site text, count int, label text,"
         " primary key (id, lang)) without rowid")
LABEL = "select label from cells where id = ? and lang = ?"


def written(count, folder):
    """The file of a site's document."""
    path = os.path.join(folder, f"{count}.json")
    if not os.path.exists(path):
        with open(path, "w", encoding="utf-8") as file:
            file.write(site(count, WIDTH))
    return path


def opened(count, folder):
    from silkwaram import Site
    with open(written(count, folder), "rb") as file:
        held = Site.open(file.read())
    return held, lambda id, lang: held.text(id, lang), 0


def mapped(count, folder):
    import silkwaram
    path = written(count, folder)
    held = silkwaram.mapped(path)
    return held, lambda id, lang: held.text(id, lang), os.path.getsize(path)


def database(path, count):
    held = sqlite3.connect(path)
    held.execute(TABLE)
    held.executemany("insert into cells values (?, ?, ?, ?, ?, ?)", cells(count, WIDTH))
    held.commit()
    return held


def asked_of(held):
    return lambda id, lang: held.execute(LABEL, (id, lang)).fetchone()[0]


def in_memory(count, _):
    held = database(":memory:", count)
    return held, asked_of(held), 0


def in_file(count, folder):
    path = os.path.join(folder, f"{count}.sqlite")
    if not os.path.exists(path):
        database(path, count).close()
    held = sqlite3.connect(path)
    return held, asked_of(held), os.path.getsize(path)


def environment(path, is_made=False):
    import lmdb
    return lmdb.open(path, map_size=1 << 32, subdir=False, lock=False, readonly=not is_made)


def in_lmdb(count, folder):
    path = os.path.join(folder, f"{count}.lmdb")
    if not os.path.exists(path):
        made = environment(path, True)
        with made.begin(write=True) as changing:
            for id, lang, time, of, number, label in cells(count, WIDTH):
                stamp = struct.pack(">QI", time, number) + of.encode() + b"\0"
                changing.put(f"{id}\t{lang}".encode(), stamp + label.encode(), append=True)
        made.close()
    held = environment(path)
    reading = held.begin()
    size = os.stat(path).st_blocks * 512
    return held, lambda id, lang: reading.get(f"{id}\t{lang}".encode()), size


def parsed(count, folder):
    with open(written(count, folder), encoding="utf-8") as file:
        held = json.load(file)
    return held, None, 0


HOLDERS = {"opened": opened, "mapped": mapped, "sqlite-memory": in_memory, "sqlite-file": in_file,
           "lmdb": in_lmdb, "json": parsed}


def own():
    """The bytes that this process holds for itself, after it gave back what is free."""
    gc.collect()
    ctypes.CDLL(None).malloc_trim(0)
    with open("/proc/self/status", encoding="ascii") as file:
        return next(int(it.split()[1]) for it in file if it.startswith("RssAnon")) * 1024


def hold(kind, count, folder):
    held, ask, size = HOLDERS[kind](count, folder)
    if ask:
        for id, language, *_ in cells(count, WIDTH):
            if not ask(id, language):
                sys.exit(f"holders: {kind} lacks {id} in {language}")
    return held, ask, size


def main(kind, count, folder):
    count = int(count)
    for it in (FEW, count):
        written(it, folder)
    small = hold(kind, FEW, folder)
    before = own()
    held = hold(kind, count, folder)
    print((own() - before) / count, held[2] / count)
    del small, held


if __name__ == "__main__":
    main(*sys.argv[1:])
