#!/usr/bin/env python3
"""Hands large documents to the command, of 64 MiB and a byte more. Each is answered, or refused by
its line.

Takes build/lexicat, or the command that LEXICAT names.
"""
import os
import sys

sys.dont_write_bytecode = True
sys.path.insert(0, os.path.dirname(os.path.realpath(__file__)))
from hostile import cell, run, site  # noqa: E402


MOST_BYTES = 67_108_864


def large_documents(checks):
    one = site(cell())
    blanks = " " * (MOST_BYTES - len(one))
    checks.reads("64 MiB, blanks", one + blanks)
    checks.refuses_site("64 MiB and a byte", f"{one}{blanks} ", 23, document=0)
    checks.refuses_site("64 MiB of brackets", "[" * MOST_BYTES, 19)
    checks.refuses_site("64 MiB of digits", "9" * MOST_BYTES, 19)
    # (an even number of them is a string, which has no site's shape)
    checks.refuses_site("64 MiB of backslashes", '"' + "\\" * (MOST_BYTES - 2) + '"', 20)
    long = MOST_BYTES - 100
    row, text = cell(label=f'["{"x" * long}"]'), "text 0 is over 65535 bytes"
    checks.refuses_site("64 MiB of one text", site(row), 11, text=text, row=0)
    checks.refuses_site("64 MiB of one id", site(cell(id="m" * long)), 10, row=0)
    checks.refuses_site("64 MiB of one language", site(cell(lang="a-" * (long // 2))), 2, row=0)
    count = long // 3
    row = cell(label="[" + '"",' * (count - 1) + '""]')
    checks.refuses_site("64 MiB of texts", site(row), 12, text=f"label has {count} texts", row=0)
    checks.refuses_site("64 MiB of rows", site("[]," * (count - 1) + "[]"), 20, row=0)
    line = f"{site()}\n"
    many = MOST_BYTES // len(line) - 1
    checks.answers("64 MiB of sites", ["merge"], line * many, line)
    given = line * many + "{}"
    checks.refuses("64 MiB of sites, then none", ["merge"], given, 20, document=many + 1)
    lines = line + "\n" * (MOST_BYTES - len(line))
    checks.refuses("64 MiB of empty lines", ["merge"], lines, 19, document=2)
    checks.refuses("64 MiB of lines and a byte", ["merge"], f"{lines}\n", 23, document=0)


run(large_documents)
