#!/usr/bin/env python3
"""Tries the modules of the editor's page that know no document, under Node: labels, work, clocks,
placeholders, languages, words, and what an exchange makes of answers. Edits are made of SEED.

Takes build/browser, as `make browser` builds it. Needed: Node.
"""
import os
import sys

sys.dont_write_bytecode = True
import editor  # noqa: E402
from editor import tap  # noqa: E402

os.chdir(editor.SOURCES)
tap.needs("build/browser/silkwaram.wasm", "node")
for it in editor.state_of(editor.PACKAGE, tap.seed()):
    tap.report(it["name"], [it["fault"]] if it["fault"] else [], it["said"])
tap.end()
