#!/usr/bin/env python3
"""Tries, by a browser and the editor's server, many messages, and that nothing jumps in a long
list. editor.py says what it takes and needs."""
import sys

sys.dont_write_bytecode = True
import editor  # noqa: E402

editor.in_test("many_messages", "in_long_list")
