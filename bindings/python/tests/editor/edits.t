#!/usr/bin/env python3
"""Tries, by browsers and the editor's server, that no edit is lost or undone, whatever its id, its
clock and its network are. editor.py says what it takes and needs."""
import sys

sys.dont_write_bytecode = True
import editor  # noqa: E402

editor.in_test("any_id", "no_edit_lost", "no_edit_undone", "wrong_clocks", "in_parallel")
