#!/usr/bin/env python3
"""Sees that the sources keep their style, so that what was put in order stays so.

usage: tests/sources/style.t [--list]     with --list each place that is counted is printed, as a
note

Never allowed:
- a source file without a `//!` at its head,
- a path of one machine, as the home folder of a user, in sources, tools, tests and pages,
- dashes and quotes that are not ASCII, in the same files.

Counted, and each count may only fall, from the number in tests/sources/style-counts:
- functions and public fields of sources without a doc comment; members of an `impl` of a trait have
  that of the trait,
- definitions (specs/**/*.antt), in a `module` too, without a sentence above them: a reader has to
  trust them, and uncited.t sees that a contract or a proof cites each,
- exported lemmas (proofs/*.antt), in a `module` too, without a sentence above them,
- answers and invariants (proofs/FILE/FUNCTION/) of more than 15 lines without a sentence above,
- lines over 100 columns, of sources, of definitions and of proofs, but those that no break helps:
  where the line fits without its texts in quotes, or is one name that is imported, or an attribute,
  which `rt fmt` keeps on one line,
- crates of more than 3,000 lines or 160 functions, so that one can be held in the head,
- files of definitions and of lemmas whose name does not begin with that of a source of the crate,
  in the singular or the plural; two of one name in specs/ and specs/inner/ count once.

A count above its number fails, and so does one below it, with the number to write: so what was won
is kept. Tests (src/tests, src/tests.rt and the crates of tests) are counted for their lines alone.
It reads files and proves nothing, and needs Python alone.
"""
import glob
import itertools
import os
import re
import sys

HERE = os.path.dirname(os.path.realpath(__file__))
sys.dont_write_bytecode = True
sys.path[:0] = [f"{HERE}/../lib", f"{HERE}/../../tools"]
import rattle_sources as rattle  # noqa: E402
import tap  # noqa: E402

COUNTS = "tests/sources/style-counts"
# What is never allowed.
PATHS = "no path of one machine"
ASCII = "dashes and quotes are ASCII"
HEADS = "each source says at its head what it is"
COLUMNS = 100
LONG_ANSWER = 15
CRATE_LINES = 3000
CRATE_FUNCTIONS = 160
MACHINE_PATH = re.compile(r"(?<![\w.:)}])/(?:home|root|work|Users|private|mnt|opt)/\w")
ONE_NAME = re.compile(r" *(?:ghost )?use [^,]*$| *#\[")
WORD_START = re.compile("(?<=[a-z0-9])(?=[A-Z])")
TYPOGRAPHY = re.compile("[\u2013\u2014\u2018\u2019\u201c\u201d]")
TEXTS = ("*.md", "Makefile", "docs/**/*", "man/*", "tests/**/*", "tools/**/*",
         "examples/**/*", "bindings/**/*", "packaging/**/*", "include/*",
         "bench/**/*")


def undocumented(path):
    """The functions and public fields of a source that have no doc comment. Members of an impl of a
    trait have that of the trait."""
    text = rattle.read(path)
    found = [(it.line, it.name, it.doc) for it in rattle.functions_of(text)
             if it.name != "main" and not (it.block and it.block.trait)]
    found += [(line, name, doc) for line, (name, doc) in rattle.fields_of(text).items()]
    return [f"{path}:{line}: {name} has no doc comment" for line, name, doc in found if not doc]


def is_of_function(path):
    """Whether a file is of the proof of one function."""
    return "/proofs/" in path and path.count("/") > 3


def unexplained(path):
    """The definitions of a file of specs/ but its private lemmas, the exported lemmas of one of
    proofs/, or the long answers and invariants of a function's proof, without a sentence above."""
    for it in rattle.definitions_of(rattle.read(path)):
        lines, what = it.last - it.line + 1, " has no sentence"
        if is_of_function(path):
            is_needed, what = lines > LONG_ANSWER, f", {lines} lines"
        else:
            is_needed = "pub" in it.words or it.words and "/specs/" in path
        if is_needed and not it.sentence:
            yield f"{path}:{it.line}: {it.name}{what}"


def too_wide(path):
    """The lines of a file that are over 100 columns and could be broken."""
    text = rattle.read(path)
    bare = rattle.without_texts(text).split("\n")
    for number, line in enumerate(text.split("\n"), 1):
        if len(line) > COLUMNS and len(bare[number - 1]) > COLUMNS and not ONE_NAME.match(line):
            yield f"{path}:{number}: {len(line)} columns"


def too_large(crate):
    """The crate, where it has too many lines or functions."""
    paths = [it for it in rattle.files_of(crate, "src", ".rt") if not rattle.is_test(it)]
    texts = [rattle.read(it) for it in paths]
    lines = sum(it.count("\n") for it in texts)
    functions = sum(len(rattle.functions_of(it)) for it in texts)
    if lines > CRATE_LINES or functions > CRATE_FUNCTIONS:
        yield f"crates/{crate}: {lines} lines, {functions} functions"


def no_source(path):
    """The file of definitions or lemmas, where no source of its crate has the name it begins with.
    """
    outer = path.replace("/specs/inner/", "/specs/")
    if path.endswith("/specs/inner.antt") or outer != path and rattle.is_there(outer):
        return
    sources = rattle.files_of(path.split("/")[1], "src", ".rt")
    name = WORD_START.sub("_", os.path.basename(path)[:-len(".antt")]).lower() + "_"
    stems = {os.path.basename(it)[:-len(".rt")].removesuffix("s") for it in sources}
    if not any(name.startswith((f"{it}_", f"{it}s_")) for it in stems):
        yield path


def add_not_allowed(faults, path, text):
    """Adds the lines of a text that no file may have."""
    for number, line in enumerate(text.split("\n"), 1):
        if MACHINE_PATH.search(line):
            faults[PATHS].append(f"{path}:{number}: a path of one machine")
        if TYPOGRAPHY.search(line):
            faults[ASCII].append(f"{path}:{number}: a dash or a quote that is not ASCII")


def other_texts():
    """The pages, tools, tests and programs beside the crates, with their texts."""
    for pattern in TEXTS:
        for path in sorted(glob.glob(os.path.join(rattle.ROOT, pattern), recursive=True)):
            if os.path.isfile(path):
                try:
                    yield os.path.relpath(path, rattle.ROOT), rattle.read(path)
                except UnicodeDecodeError:
                    pass


def places():
    """What is counted, by the name of its count; and what is never allowed, by its kind."""
    counted = {"undocumented": [], "unexplained-definitions": [], "unexplained-lemmas": [],
               "unexplained-answers": [], "wide-sources": [], "wide-specs": [], "wide-proofs": [],
               "large-crates": [it for crate in rattle.crates() for it in too_large(crate)],
               "names-of-no-source": []}
    faults = {PATHS: [], ASCII: [], HEADS: []}
    for path, text in other_texts():
        add_not_allowed(faults, path, text)
    kinds = (("src", ".rt", "wide-sources"), ("specs", ".antt", "wide-specs"),
             ("proofs", ".antt", "wide-proofs"))
    for crate, (folder, ending, count) in itertools.product(rattle.crates(), kinds):
        for path in rattle.files_of(crate, folder, ending):
            text = rattle.read(path)
            counted[count] += too_wide(path)
            add_not_allowed(faults, path, text)
            if ending == ".antt":
                kind = "definitions" if folder == "specs" else "lemmas"
                kind = "answers" if is_of_function(path) else kind
                counted[f"unexplained-{kind}"] += unexplained(path)
                counted["names-of-no-source"] += [] if kind == "answers" else no_source(path)
            elif not rattle.is_test(path):
                counted["undocumented"] += undocumented(path)
                if not text.startswith("//!"):
                    faults[HEADS].append(f"{path}:1: no `//!` at its head")
    return counted, faults


def allowed():
    """The number of each count, from its file."""
    lines = [line.split() for line in rattle.read(COUNTS).split("\n") if line[:1] not in ("", "#")]
    return {name: int(number) for name, number in lines}


def compared(name, count, number):
    """What is wrong with a count, beside the number that is allowed."""
    if count > number:
        yield f"{name}: {count}, and {COUNTS} allows {number} (style.t --list shows them)"
    elif count < number:
        yield f"{name}: {count}, fewer than the {number} of {COUNTS}: write {count} there"


counted, faults = places()
numbers = allowed()
for name, found in faults.items():
    tap.report(name, found)
wanted = f"{COUNTS} has to have these counts: {' '.join(sorted(counted))}"
tap.report("the names of the counts", [] if set(counted) == set(numbers) else [wanted])
for name in sorted(set(counted) & set(numbers)):
    count = len(counted[name])
    faults = list(compared(name, count, numbers[name]))
    tap.report(f"the count of {name}", faults, f"{count}, as allowed")
if "--list" in sys.argv[1:]:
    for place in sorted(sum(counted.values(), [])):
        tap.note(place)
tap.end()
