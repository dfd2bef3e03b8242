"""What a test has happen in a program, by variables of its environment.

CLOCK=N          the clock shows N milliseconds
FAIL=CALL:ERROR  a call fails, as `os.replace:ENOSPC`; CALL:ERROR:TEXT only if a word of it has that text
MARK=CALL        a call makes the file CALL.began first, where it would wait
"""
import builtins
import errno
import fcntl
import os
import sys
import time

# (so that a program is compiled once in a test, and nothing is left in the sources)
sys.pycache_prefix = os.environ.get("PYCACHE")
sys.dont_write_bytecode = sys.pycache_prefix is None
MODULES = {"os": os, "fcntl": fcntl, "builtins": builtins}


def _wrapped(name, before):
    """Puts what is done before a call in front of it."""
    module, _, call = name.partition(".")
    its = getattr(MODULES[module], call)

    def wrapped(*words, **named):
        before(words)
        return its(*words, **named)

    setattr(MODULES[module], call, wrapped)


def _fail(name, number, text):
    def before(words):
        if any(text in str(it) for it in words):
            raise OSError(number, os.strerror(number))

    _wrapped(name, before)


if "CLOCK" in os.environ:
    time.time_ns = lambda: int(os.environ["CLOCK"]) * 1_000_000
if "FAIL" in os.environ:
    _call, _error, *_text = os.environ["FAIL"].split(":")
    _fail(_call, getattr(errno, _error), "".join(_text))
if "MARK" in os.environ:
    _name = os.path.abspath(f"{os.environ['MARK']}.began")
    _wrapped(os.environ["MARK"], lambda _: os.close(os.open(_name, os.O_CREAT)))
