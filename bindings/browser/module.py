"""Checks that a module of WebAssembly imports nothing, exports its memory and these functions, and
that its memory has 32-bit addresses and no largest size.

usage: module.py MODULE NAME..
"""
import sys

IMPORTS, MEMORIES, EXPORTS = 2, 5, 7
FUNCTION, MEMORY = 0, 2


def stop(what):
    sys.exit(f"module.py: {what}")


def number(data, at):
    """Reads an unsigned number (LEB128), and returns it with the place after it."""
    value = shift = 0
    while True:
        byte = data[at]
        at += 1
        value |= (byte & 127) << shift
        shift += 7
        if byte < 128:
            return value, at


def sections(data):
    """The sections of a module: the kind of each, and its bytes."""
    if data[:8] != b"\0asm\1\0\0\0":
        stop("this is no module of WebAssembly")
    at = 8
    while at < len(data):
        kind = data[at]
        size, at = number(data, at + 1)
        yield kind, data[at:at + size]
        at += size


def exports(section):
    """The exports in a section: name and kind of each."""
    count, at = number(section, 0)
    for _ in range(count):
        size, at = number(section, at)
        name = section[at:at + size].decode()
        kind = section[at + size]
        _, at = number(section, at + size + 1)
        yield name, kind


def check(path, names):
    with open(path, "rb") as file:
        found = dict(sections(file.read()))
    if IMPORTS in found:
        stop("the module imports something")
    wanted = {("memory", MEMORY), *((it, FUNCTION) for it in names)}
    shown = set(exports(found[EXPORTS]))
    if shown != wanted:
        stop(f"exported, and not to be, or the other way round: {sorted(shown ^ wanted)}")
    if found[MEMORIES][0] != 1 or found[MEMORIES][1]:
        stop("the module has not one memory of 32-bit addresses, without a largest size")


if __name__ == "__main__":
    if len(sys.argv) < 3:
        sys.exit(__doc__)
    check(sys.argv[1], sys.argv[2:])
