#!/usr/bin/env python3
"""Tries, by browsers and the editor's server, what comes late: edits that are overridden, and files
that come back. editor.py says what it takes and needs."""
import sys

sys.dont_write_bytecode = True
import editor  # noqa: E402

editor.in_test("overridden_shown", "late_files")
