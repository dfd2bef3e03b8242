#!/usr/bin/env python3
"""Runs the command of the package for npm and the native one over the same streams, and compares the
statuses and what both write: inputs that fail, that are not read or that are as large as is taken, and
outputs that are full or closed.

usage: streams.py LEXICAT COMMAND    (COMMAND: the one of the package, as npm installs it)
"""
import os
import subprocess
import sys
import tempfile

MOST_BYTES = 67108864
SITE = b'{"cells":[["m","en",5,"paris",0,["Hello"]]],"kind":"site","site":"paris","version":2}\n'
READING = ["status", "export", "lookup --id m en", "filter --id m fr", "put --now 9 --id m --lang fr x"]
UNREAD = ["pick en en", "pick en fr", "pick en e", "new --site a", "explain 9", "--help", "-h", "pick --help",
          "help", "help put", "--version", "sink", "put --now 9 --id @m --lang en a", "help help", ""]
# (the end of a hang alone)
SECONDS = 600


def ended(program, words, source, output=subprocess.PIPE, errors=subprocess.PIPE):
    """The status of a command line, and what it wrote."""
    ran = subprocess.run([program, *words.split()], stdin=source, stdout=output, stderr=errors,
                         timeout=SECONDS, check=False)
    return ran.returncode, ran.stdout, ran.stderr


def over(data):
    """A call over a file of these bytes."""
    def call(program, words):
        with tempfile.TemporaryFile() as file:
            file.write(data)
            file.seek(0)
            return ended(program, words, file)
    return call


def over_folder(program, words):
    """A call over a folder, of which each read fails."""
    folder = os.open("/", os.O_RDONLY)
    try:
        return ended(program, words, folder)
    finally:
        os.close(folder)


def over_waiting(program, words):
    """A call over a pipe that nothing comes through, and that has no end."""
    source, other = os.pipe()
    try:
        return ended(program, words, source)
    finally:
        os.close(source)
        os.close(other)


def to_full(program, words):
    """A call whose output takes nothing."""
    with tempfile.TemporaryFile() as file, open("/dev/full", "wb") as full:
        file.write(SITE)
        file.seek(0)
        return ended(program, words, file, output=full)


def to_closed(program, words):
    """A call whose output nobody reads."""
    source, output = os.pipe()
    os.close(source)
    try:
        with tempfile.TemporaryFile() as file:
            file.write(SITE)
            file.seek(0)
            return ended(program, words, file, output=output)
    finally:
        os.close(output)


def without_reports(program, words):
    """A call whose reports nobody reads."""
    with open("/dev/full", "wb") as full:
        return ended(program, words, subprocess.DEVNULL, errors=full)


def large():
    """Inputs of just as many bytes as are taken, with a site and without, and of one more."""
    blanks = b" " * (MOST_BYTES - len(SITE))
    return [over(SITE + blanks), over(blanks + SITE), over(blanks + SITE + b" "), over(b" " * (MOST_BYTES + 9))]


def site_of(size):
    """A document of a site of about so many bytes."""
    rows = ",".join(f'["m{at:07}","en",5,"paris",{at},["{"x" * 900}"]]' for at in range(size // 940))
    return b'{"cells":[%s],"kind":"site","site":"paris","version":2}\n' % rows.encode()


def main():
    """Asks both, and prints where they differ."""
    native, packed = sys.argv[1:]
    every = READING + UNREAD
    cases = [(call, words) for call in (over(SITE), over(b""), over_folder) for words in every]
    cases += [(over_waiting, words) for words in UNREAD]
    cases += [(call, words) for call in (to_full, to_closed) for words in every]
    cases += [(without_reports, words) for words in every]
    cases += [(call, "status") for call in large()]
    whole = over(site_of(MOST_BYTES - 1000000))
    cases += [(whole, words) for words in ("status", "put --now 9 --id m --lang fr x", "lookup --id m0000009 en")]
    faults = 0
    for call, words in cases:
        wanted, got = call(native, words), call(packed, words)
        if got != wanted:
            faults += 1
            print(f"streams: {getattr(call, '__name__', call)}: {words}")
            for status, output, errors in (wanted, got):
                print(f"  {status} {(output or b'')[:200]} {(errors or b'')[:200]}")
    print(f"{len(cases)} command lines over streams that fail, wait or are large; {faults} differ")
    return 1 if faults else 0


if __name__ == "__main__":
    sys.exit(main())
