#!/usr/bin/env python3
"""Sees that the links of the docs lead to files that are there, and that what they name is linked.

Each relative link of a page leads to a file or a folder, and its anchor to a heading. A path in
backticks that begins with a folder of the repository, as `tools/mutants/try`, exists; one with a
word in capitals, as `crates/CRATE/src`, stands for several and is left out. In the last column of
the tables of docs/maintaining/STANDARDS.md each name is a link to the file that defines it. In
PAGES each source, file of definitions, relation, tool, test, folder and page in backticks is a
link. Each source of a crate is in a table of docs/maintaining/ARCHITECTURE.md, by itself or by its
folder. Links of packed pages are tried by tools/packed-links. It reads files, and needs Python
alone.
"""
import glob
import os
import re
import sys

HERE = os.path.dirname(os.path.realpath(__file__))
sys.dont_write_bytecode = True
sys.path[:0] = [f"{HERE}/../lib", f"{HERE}/../../tools"]
import rattle_sources as rattle  # noqa: E402
import tap  # noqa: E402
from markdown_links import LINK, TARGET, fault_of, lines_of, links_in, path_of  # noqa: E402

MAP = "docs/maintaining/ARCHITECTURE.md"
FOLDERS = ("bench", "bindings", "crates", "docs", "examples",
           "include", "man", "packaging", "tests", "tools")
STANDARDS = "docs/maintaining/STANDARDS.md"
PAGES = ["README.md", MAP, "docs/maintaining/PROOFS.md", STANDARDS]


def paths_of(*patterns):
    for pattern in patterns:
        yield from glob.glob(os.path.join(rattle.ROOT, pattern), recursive=True)


sources = {os.path.basename(path)
           for path in paths_of("crates/*/src/**/*.rt", "crates/*/specs/**/*.antt")}


def names_a_file(name):
    """Whether a name in backticks is that of a source or another file, a folder or a page."""
    if name in sources:
        return True
    if name.startswith("build/"):  # what `make` makes
        return False
    if " " in name or not ("/" in name or name.endswith((".md", ".txt")) or name == "Makefile"):
        return False
    return rattle.is_there(name.rstrip("/")) or rattle.is_there("docs/" + name)


def is_lost(name):
    """Whether a name in backticks is a path of the repository that is not there."""
    path = name.rstrip("/")
    if not re.fullmatch(rf"(?:{'|'.join(FOLDERS)})/[\w./*-]+", path):
        return False
    if re.search(r"(^|[/_.])[A-Z]{2,}\b(?!\.md)", path) or "/out" in path:
        return False
    return not glob.glob(os.path.join(rattle.ROOT, path))


def sources_without_row():
    """The sources of crates, but their roots, to which no row of the map's tables leads."""
    rows = "".join(line for line in lines_of(rattle.ROOT, MAP) if line.startswith("|"))
    linked = {path_of(MAP, target)[0] for target in TARGET.findall(rows)}
    for crate in rattle.crates():
        if crate.endswith("_tests") or crate.startswith("example_"):
            continue
        for path in rattle.source_files(crate):
            folders = [os.path.dirname(path)] if path.count("/") > 3 else []
            if path.endswith(("/src/lib.rt", "/src/main.rt")) or linked & {path, *folders}:
                continue
            yield path


def links_of(page, number, line):
    """The links of a line, each with why it leads nowhere, or None."""
    for target in links_in(line):
        why = fault_of(rattle.ROOT, page, target)
        yield why and f"{page}:{number}: {why}"


def lost(page, number, line):
    """The paths of a line that are not there."""
    for name in re.findall(r"`([^`]+)`", line):
        if is_lost(name):
            yield f"{page}:{number}: there is no {name}"


def unlinked(page, number, line):
    """The names of files and relations of a line that are no links."""
    for name in re.findall(r"`([^`]+)`", LINK.sub("", line)) if page in PAGES else ():
        if names_a_file(name) or re.fullmatch(r"(Is|Are|Has|Refuses|Reads)[A-Z]\w+", name):
            yield f"{page}:{number}: {name} is named without a link"


def undefined(page, number, line):
    """The names in the last column of a row of the standards that are no link to what defines them.
    """
    if page != STANDARDS or not line.startswith("|") or line.startswith("|--"):
        return
    column = line.rstrip().rstrip("|").split(" | ")[-1]
    for name in re.findall(r"`([^`]+)`", LINK.sub("", column)):
        yield f"{page}:{number}: {name} is no link"
    for name, target in re.findall(r"\[`([^`]+)`\]\(([^)]+)\)", column):
        path, _ = path_of(page, target)
        if path.endswith(".antt") and rattle.is_there(path):
            file = os.path.basename(path)[:-len(".antt")]
            if name != file and name not in rattle.exported_by(path):
                yield f"{page}:{number}: {path} does not define {name}"


pages = sorted({os.path.relpath(path, rattle.ROOT)
                for path in paths_of("*.md", "docs/**/*.md", "*/README.md", "examples/**/*.md",
                                     "bindings/**/*.md")})
lines = [(page, number, line) for page in pages
         for number, line in enumerate(lines_of(rattle.ROOT, page), 1)]


def found(look):
    """What a look at each line finds."""
    return [it for place in lines for it in look(*place)]


links = found(links_of)
tap.report("links lead to files and headings", [it for it in links if it],
           f"{len(links)} links of {len(pages)} pages")
tap.report("paths in backticks are there", found(lost))
tap.report("what the pages for readers and maintainers name is a link", found(unlinked))
tap.report("the standards link what defines each name", found(undefined))
tap.report("each source is in a table of the map",
           [f"{MAP}: {path} is in no table" for path in sources_without_row()])
tap.end()
