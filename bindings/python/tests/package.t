#!/usr/bin/env python3
"""Runs the tests of the Python package, test_*.py, and shows each by its name.

usage: bindings/python/tests/package.t

Takes build/lib/libsilkwaram.so, which `make library` builds, or the file that SILKWARAM_LIBRARY
names. Needed: Python alone.
"""
import os
import sys

HERE = os.path.dirname(os.path.realpath(__file__))
TOP = os.path.realpath(f"{HERE}/../../..")
sys.dont_write_bytecode = True
sys.path[:0] = [f"{TOP}/tests/lib", os.path.realpath(f"{HERE}/../src")]
import tap  # noqa: E402


def main():
    """Runs the tests. (A process that one of them starts reads this file too.)"""
    here = f"{TOP}/build/lib/libsilkwaram.so"
    library = os.path.abspath(os.environ.get("SILKWARAM_LIBRARY", here))
    os.chdir(TOP)
    tap.needs(os.path.relpath(library))
    # (programs that the tests run have the same)
    os.environ.update(SILKWARAM_LIBRARY=library, PYTHONPATH=os.path.realpath(f"{HERE}/../src"))
    os.environ["PYTHONDONTWRITEBYTECODE"] = "1"
    tap.run_unittests(HERE)
    tap.end()


if __name__ == "__main__":
    main()
