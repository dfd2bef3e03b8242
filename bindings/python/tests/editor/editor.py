#!/usr/bin/env python3
"""Tries the promises of the editor (python -m silkwaram.editor) by browsers and its server.

usage: editor.py [PROMISE..]
           all of them, or those functions of editor_promises.py and the others beside it, as the
           tests (*.t) beside it do it in parts
       editor.py --without [PROMISE..]
           takes each remedy of editor_remedies.json out of a copy, and sees that its promise fails
       editor.py --pictures FOLDER
           leaves what the page looks like there

It takes build/browser, as `make browser` builds it, and build/lib/libsilkwaram.so or the file that
SILKWARAM_LIBRARY names. Needed: Chromium (CHROMIUM names it). What needs more says that it is skipped:
the state of the page Node, and lexicat-exchange build/lexicat or the command that LEXICAT names.
"""
import contextlib
import json
import os
import shutil
import subprocess
import sys
import tempfile
import unittest

sys.dont_write_bytecode = True
from editor_page import LIBRARY, PACKAGE, SOURCES, chromium  # noqa: E402, I001
import editor_back  # noqa: E402
import editor_looks  # noqa: E402
import editor_messages  # noqa: E402
import editor_more  # noqa: E402
import editor_outside  # noqa: E402
import editor_promises  # noqa: E402
import editor_still  # noqa: E402
import tap  # noqa: E402

HERE = os.path.dirname(os.path.realpath(__file__))


def state_of(package, seed=7):
    """What editor_state.mjs finds of each thing that it tries: a name, a fault or None, and words."""
    words = ["node", f"{HERE}/editor_state.mjs", f"{package}/silkwaram/editor/page"]
    words += [f"{SOURCES}/build/browser", str(seed)]
    done = subprocess.run(words, capture_output=True, text=True)
    if done.returncode != 0:
        raise chromium.Failed(done.stderr[-1500:])
    return [json.loads(it) for it in done.stdout.split("\n")[:-1]]


def state(room):
    """The state of the page without a document, under Node."""
    if shutil.which("node") is None:
        raise unittest.SkipTest("there is no node")
    faults = [it["fault"] for it in state_of(room.server.package) if it["fault"]]
    if faults:
        raise chromium.Failed("; ".join(faults)[:1500])
    return []


PROMISES = {it.__name__: it for it in (
    state,
    editor_promises.any_id, editor_promises.no_edit_lost, editor_promises.no_edit_undone,
    editor_promises.wrong_clocks, editor_promises.in_parallel,
    editor_more.work_seen, editor_messages.whole_messages, editor_more.languages_chosen,
    editor_more.exchange_alone, editor_more.key_wanted, editor_outside.po_files,
    editor_more.many_messages,
    editor_looks.looks, editor_looks.by_keys,
    editor_still.nothing_jumps, editor_still.in_long_list,
    editor_outside.by_lexicat_exchange, editor_outside.tampered,
    editor_back.overridden_shown, editor_back.late_files,
)}


def tried(promise, package=PACKAGE):
    """Tries a promise; a chromium.Failed where it is not kept."""
    with contextlib.ExitStack() as stack:
        for editor in promise(editor_promises.Room(package, stack)):
            if editor.faults():
                raise chromium.Failed(f"the page has thrown: {editor.faults()}")


def without(remedy, room):
    """A copy of the package without a remedy."""
    package = f"{room}/package"
    shutil.copytree(PACKAGE, package)
    path = f"{package}/silkwaram/editor/{remedy['file']}"
    with open(path, encoding="utf-8") as file:
        text = file.read()
    if text.count(remedy["old"]) != 1:
        sys.exit(f"{remedy['file']} has {text.count(remedy['old'])} times {remedy['old']}")
    with open(path, "w", encoding="utf-8") as file:
        file.write(text.replace(remedy["old"], remedy["new"]))
    return package


def try_without(names):
    """Sees that a promise fails where its remedy is taken out."""
    # (what fails waits in vain)
    chromium.MOST_SECONDS = 15
    with open(f"{HERE}/editor_remedies.json", encoding="utf-8") as file:
        remedies = [it for it in json.load(file) if not names or it["promise"] in names]
    passed = []
    for remedy in remedies:
        with tempfile.TemporaryDirectory() as room:
            try:
                tried(PROMISES[remedy["promise"]], without(remedy, room))
            except Exception as why:  # noqa: B902 (a page that is broken may break the test too)
                print(
                    f"{remedy['promise']} fails without {remedy['old'].strip()[:50]}: "
                    f"{str(why).splitlines()[0][:110]}",
                    flush=True,
                )
            else:
                passed.append(f"{remedy['promise']}: {remedy['old']}")
    if passed:
        raise chromium.Failed(
            "these promises are kept without their remedies: " + "; ".join(passed)
        )
    print(f"{len(remedies)} remedies, each needed")


def main(words):
    if words[:1] == ["--without"]:
        try_without(words[1:])
        return
    if words[:1] == ["--pictures"]:
        editor_looks.take_pictures(words[1])
        return
    in_test(*(words or PROMISES))


def in_test(*names):
    """Tries the promises of these names, each under its sentence, as a test."""
    os.chdir(SOURCES)
    tap.needs("build/browser/silkwaram.wasm", os.path.relpath(LIBRARY))
    if chromium.program() is None:
        tap.skip_all("there is no Chromium")
    for promise in map(PROMISES.get, names):
        name = promise.__doc__.splitlines()[0].rstrip(".")
        try:
            tried(promise)
        except unittest.SkipTest as why:
            tap.skip(name, str(why))
        except Exception as why:  # noqa: B902 (any fault is one of the promise)
            tap.fail(name, f"{promise.__name__}: {why}")
        else:
            tap.ok(name)
    tap.end()


if __name__ == "__main__":
    try:
        main(sys.argv[1:])
    except chromium.Failed as failed:
        sys.exit(f"editor.py: {failed}")
