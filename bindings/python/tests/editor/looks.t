#!/usr/bin/env python3
"""Looks, in a browser, at the editor in each of its states: widths, contrast and names. editor.py
says what it takes and needs."""
import sys

sys.dont_write_bytecode = True
import editor  # noqa: E402

editor.in_test("looks")
