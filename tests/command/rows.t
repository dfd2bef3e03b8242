#!/usr/bin/env python3
"""Asks the command each question of tests/command/rows/*.rows, and compares what it answers. Each
file is one test; row_files.py says what a row is. It proves nothing.

usage: tests/command/rows.t [FILE.rows ..]

Takes build/lexicat, or the command that LEXICAT names.
"""
import glob
import os
import sys
from concurrent.futures import ThreadPoolExecutor

HERE = os.path.dirname(os.path.abspath(__file__))
sys.dont_write_bytecode = True
sys.path[:0] = [HERE, f"{HERE}/../lib"]
import row_files  # noqa: E402
import tap  # noqa: E402

tap.needs(row_files.COMMAND)
paths = sys.argv[1:] or sorted(glob.glob(os.path.join(row_files.FOLDER, "*.rows")))
if not paths:
    tap.fail("rows", f"no file {row_files.FOLDER}/*.rows")
with ThreadPoolExecutor(os.cpu_count()) as pool:
    files = [(path, *row_files.read(path)) for path in paths]
    asked = [pool.map(row_files.asked, questions) for _, questions, _, _ in files]
    for (path, questions, rows, faults), answers in zip(files, asked):
        faults += [fault for fault in answers if fault]
        said = f"{rows} rows, {len(questions)} questions, {len(faults)} faults"
        tap.report(f"the rows of {os.path.basename(path)}", faults, said)
tap.end()
