"""The Rattle kit's own command `rt` as a module, for what no command of it does
(docs/maintaining/GATE.md).

usage: tools/rattle_kit.py CRATE    prints the first line of the log of a crate's proof
"""
import contextlib
import functools
import hashlib
import importlib.machinery
import importlib.util
import os
import re
import shutil
import subprocess
import sys
import tempfile
import threading
from concurrent.futures import FIRST_COMPLETED, ThreadPoolExecutor, wait

KITS = ("rattle-kit-13b logic dac8208d650f15bf", "rattle-kit-13f logic dac8208d650f15bf")
# How a line begins that is a comment alone.
COMMENTS = {".rt": b"//", ".antt": b"--"}
# The kit's clang, as it is called for a folder that keeps what it is given.
CLANG = """#!/bin/sh
for word in "$@"; do
    case $word in *.bc) cp "$word" '{module}' ;; esac
done
exec '{clang}' "$@"
"""


def command():
    """Returns the path of the kit's command `rt`: that which RT names, or the one on the PATH."""
    return shutil.which(os.environ.get("RT", "rt")) or sys.exit("there is no command rt")


@functools.lru_cache(maxsize=None)
def version():
    """Returns the kit's one-line identity."""
    return subprocess.run([command(), "version"], capture_output=True, text=True).stdout.strip()


def logic():
    """Returns what the kit says of its logic. Kits that prove from the same one say the same."""
    return version().partition(" ")[2]


def is_known():
    """Returns whether the kit is one of those that this module was tried with. With another one
    crates are proved by `rt ci` alone, and what is faster, or no command of `rt`, is left out."""
    return version() in KITS


@functools.lru_cache(maxsize=None)
def load_rt():
    """Returns `rt` as a module, and stops at one of another kit than those it was tried with. Its
    module has the kit's version as `version`."""
    sys.dont_write_bytecode = True
    if not is_known():
        kits, page = " or ".join(KITS), "docs/maintaining/GATE.md"
        sys.exit(f"this was written for {kits}, and rt is of {version()}: {page}")
    loader = importlib.machinery.SourceFileLoader("rt", os.path.realpath(command()))
    rt = importlib.util.module_from_spec(importlib.util.spec_from_loader("rt", loader))
    loader.exec_module(rt)
    rt.version = version()
    rt.rtlib.Crate.stamp = once_a_crate(rt.rtlib.Crate.stamp)
    return rt


def once_a_crate(stamp):
    """Returns the kit's function that sums up a crate and all below it, so that one call sums up
    each crate once. (The kit's own does so once for each chain of crates: 8,000 times for the
    last.)"""
    known = threading.local()

    def stamp_once(crate):
        if not hasattr(known, "stamps"):
            known.stamps = {}
            try:
                return stamp(crate)
            finally:
                del known.stamps
        if crate.folder not in known.stamps:
            known.stamps[crate.folder] = stamp(crate)
        return known.stamps[crate.folder]

    return stamp_once


def in_lanes(tasks, beside=0):
    """Runs tasks side by side, each once those that it waits for have ended, first those with the
    most work after them, and returns what each gave. A task is what it waits for, its work in
    lines, its memory in bytes, and a call that gets what was given so far and how many jobs it may
    use. A task that others wait for gets processors as if those were not there for which none
    waits. As many of these as `beside` says run where no processor is free: they are to have a
    lower priority, and a check with as many jobs as there are processors leaves some idle while it
    reads and writes."""
    # (of what rt plans for a check at most half was seen to be taken)
    lanes, memory = len(os.sched_getaffinity(0)), 2 * 0.85 * free_memory()
    after, awaited = {key: 0 for key in tasks}, {it for waits, *_ in tasks.values() for it in waits}
    for key in reversed([*tasks]):
        after[key] += tasks[key][1]
        for it in tasks[key][0]:
            after[it] = max(after[it], after[key])
    given, running, left = {}, {}, sorted(tasks, key=lambda it: -after[it])
    is_last = lambda it: it[0] not in awaited
    with ThreadPoolExecutor(2 * lanes) as pool:
        while left or running:
            ready = [it for it in left if all(below in given for below in tasks[it][0])]
            for at, key in enumerate(ready):
                _, _, needs, call = tasks[key]
                is_rival = lambda it: it in awaited or key not in awaited
                idle = lanes - sum(jobs for it, _, jobs in running.values() if is_rival(it))
                if key not in awaited and sum(map(is_last, running.values())) < beside:
                    idle = max(idle, 1)
                room = memory - sum(used for _, used, _ in running.values())
                if running and needs > room:
                    break
                if idle < 1:
                    continue
                share = -(-idle // sum(map(is_rival, ready[at:])))
                jobs = max(1, min(4, share, 1 + int((room / needs - 1) / 0.6)))
                used = needs * (1 + 0.6 * (jobs - 1))
                running[pool.submit(call, given, jobs)] = key, used, jobs
                left.remove(key)
            for it in wait(running, return_when=FIRST_COMPLETED).done:
                given[running.pop(it)[0]] = it.result()
    return given


def need(crate):
    """Returns the most memory that a check of the crate over built libraries is likely to take, in
    bytes. (A kit without `rt.need` has the figure for libraries that are checked too.)"""
    return getattr(load_rt(), "need", type(crate).need)(crate)


def free_memory():
    """Returns the bytes of memory that are free."""
    with open("/proc/meminfo", encoding="ascii") as it:
        return 1024 * int(re.search(r"MemAvailable:\s+(\d+)", it.read())[1])


def toolchain_that_keeps(kit, module, room):
    """Makes a folder of links to the kit's toolchain, whose clang copies the module of LLVM that it
    is given to the file `module`, and returns its path."""
    links_to(f"{kit}/toolchain", f"{room}/toolchain")
    os.remove(f"{room}/toolchain/bin")
    links_to(f"{kit}/toolchain/bin", f"{room}/toolchain/bin")
    os.remove(f"{room}/toolchain/bin/clang")
    with open(f"{room}/toolchain/bin/clang", "x", encoding="utf-8") as file:
        file.write(CLANG.format(module=module, clang=f"{kit}/toolchain/bin/clang"))
    os.chmod(f"{room}/toolchain/bin/clang", 0o755)
    return f"{room}/toolchain"


def links_to(folder, to):
    """Fills the new folder `to` with links to what another has."""
    os.mkdir(to)
    for name in os.listdir(folder):
        os.symlink(f"{folder}/{name}", f"{to}/{name}")


def built_files(crate):
    """Returns the paths of what is left of a program or a static library: itself, the module of
    LLVM that clang made it of, from which tools/browser and tools/arm64 make others, and a sum of
    what both were made of."""
    names = f"lib{crate.name}.a" if crate.is_static else crate.name, f"{crate.name}.bc"
    return [f"{crate.folder}/out/{it}" for it in (*names, f"{crate.name}.made")]


@contextlib.contextmanager
def keeping_module(crate):
    """Keeps the module of LLVM that clang is given where `rt` builds the crate meanwhile, and gives
    the path of its file. (By its stamp `rt` would take a program that is there.)"""
    kit, call = load_rt().KIT, crate.call
    with contextlib.suppress(FileNotFoundError):
        os.remove(f"{crate.folder}/out/{crate.name}.stamp")
    with tempfile.TemporaryDirectory(prefix="module-") as room:
        toolchain = toolchain_that_keeps(kit, f"{room}/module", room)
        crate.call = lambda *words: call(
            *(toolchain if it == f"{kit}/toolchain" else it for it in words)
        )
        yield f"{room}/module"
        crate.call = call


def keep_module(crate, module):
    """Puts the module of LLVM beside a program or the archive of a static library, and of what both
    were made."""
    _, kept, made = built_files(crate)
    shutil.copyfile(module, kept)
    with open(made, "w", encoding="utf-8") as file:
        file.write(sum_made(crate))


def sum_made(crate):
    """Returns a sum of what a crate is made of: its own sources, and what it reads of the libraries
    below, which have to be built."""
    return sum_of(sum_of_sources(crate), *map(sum_of_library, crate.below()))


def sum_of_sources(crate):
    """Returns a sum of the kit, of the crate's line of crates.txt, and of the files that its proof
    reads."""
    kind = repr((crate.name, crate.said, [it.name for it in crate.deps], crate.of_kit))
    parts = [f"{crate.folder}/{it}" for it in ("src", "specs", "proofs")]
    return sum_of(load_rt().version, kind, *texts_of(parts))


def sum_of_library(crate):
    """Returns a sum of what crates above read of a library that is built, its statements and its
    code."""
    return sum_of_library_at(crate.rlib)


def sum_of_library_at(rlib, known={}):
    """Returns the same of the library in a folder. What is left out says how it was checked. It is
    summed up once, as its files are never written in place."""
    code = f"{rlib}/toolchain/mir.json"
    found = os.stat(code)
    key = rlib, found.st_ino, found.st_mtime_ns
    if key not in known:
        with open(code, "rb") as it:
            parts = [f"{rlib}/lang", f"{rlib}/interface"]
            known[key] = sum_of(it.read(), *texts_of(parts, without_comments))
    return known[key]


def sum_of_tree(folder):
    """Returns a sum of all files in a folder, or "" where there is none."""
    texts = texts_of([folder])
    return sum_of(*texts) if texts else ""


def without_comments(name, text):
    """Returns the text of a source without the lines that are comments alone, which no proof
    reads."""
    mark = COMMENTS.get(os.path.splitext(name)[1])
    lines = text.split(b"\n")
    return b"\n".join(it for it in lines if not (mark and it.lstrip().startswith(mark)))


def texts_of(folders, change=lambda name, text: text):
    """Returns the paths of the files below these folders and their texts, each after `change`."""
    texts = []
    for top in folders:
        for folder, inside, files in os.walk(top):
            inside.sort()
            for name in sorted(files):
                with open(f"{folder}/{name}", "rb") as it:
                    text = it.read()
                texts += [os.path.relpath(f"{folder}/{name}", top), change(name, text)]
    return texts


def sum_of(*texts):
    """Returns a sum of some texts, each with its length."""
    whole = hashlib.sha256()
    for it in texts:
        text = it.encode() if isinstance(it, str) else it
        whole.update(b"%d " % len(text) + text)
    return whole.hexdigest()[:32]


def sum_line(crate):
    """Returns the first line of the log of a crate's proof: a sum of the kit's name and of the
    crate's files but its mutants, which no proof reads."""
    folder = f"{os.path.dirname(os.path.dirname(os.path.realpath(__file__)))}/crates/{crate}"
    left_out = "out", "must-fail"
    parts = [it.path for it in os.scandir(folder) if it.is_dir() and it.name not in left_out]
    return f"sources: {sum_of(version(), *texts_of(sorted(parts)))}"


if __name__ == "__main__":
    print(sum_line(sys.argv[1]))
