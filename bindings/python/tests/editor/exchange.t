#!/usr/bin/env python3
"""Tries, by browsers and the editor's server, exchanges by themselves, by keys, by files of other
tools and by lexicat-exchange; and what the server takes of whom. editor.py says what it takes and
needs."""
import sys

sys.dont_write_bytecode = True
import editor  # noqa: E402

editor.in_test("exchange_alone", "key_wanted", "po_files", "by_lexicat_exchange", "tampered")
