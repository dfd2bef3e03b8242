#!/usr/bin/env python3
"""Tries, by browsers and the editor's server, a person's work: what is seen of it, whole messages,
languages, and a day by keys. editor.py says what it takes and needs."""
import sys

sys.dont_write_bytecode = True
import editor  # noqa: E402

editor.in_test("work_seen", "whole_messages", "languages_chosen", "by_keys")
