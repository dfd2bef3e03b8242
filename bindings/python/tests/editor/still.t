#!/usr/bin/env python3
"""Tries, by browsers of three sizes and two directions, that nothing in the editor jumps. editor.py
says what it takes and needs."""
import sys

sys.dont_write_bytecode = True
import editor  # noqa: E402

editor.in_test("nothing_jumps")
