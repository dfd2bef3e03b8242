#!/usr/bin/env python3
"""Sees that README and the pages for an editor, a programmer and an operator can be read once.

Each word of docs/GLOSSARY.md is a link to its entry where a page first uses it, but in code,
headings and quotations. README has at most 1,600 words and each of the other pages 600 to 900. Each
picture has a title, a description, colours for light and for dark pages and nothing from elsewhere,
and a page shows it with a text in its place. It reads files, and needs Python alone.
"""
import glob
import os
import re
import sys
import xml.etree.ElementTree as ElementTree

HERE = os.path.dirname(os.path.realpath(__file__))
sys.dont_write_bytecode = True
sys.path[:0] = [f"{HERE}/../lib", f"{HERE}/../../tools"]
import tap  # noqa: E402
from markdown_links import LINK, lines_of, path_of  # noqa: E402

ROOT = os.path.realpath(f"{HERE}/../..")
GLOSSARY = "docs/GLOSSARY.md"
# The pages, each with the least and the most words that it may have.
PAGES = {"README.md": (0, 1600), "docs/EDITING.md": (600, 900), "docs/SERVING.md": (600, 900),
         "docs/RUNNING.md": (600, 900)}
IMAGE = re.compile(r"!\[([^\]]*)\]\(([^)\s]+)\)")
CODE = re.compile(r"`[^`]*`")
SVG = "{http://www.w3.org/2000/svg}"


def read(path):
    with open(os.path.join(ROOT, path), encoding="utf-8") as file:
        return file.read()


def prose_of(page):
    """Yields the pieces of a page that are read as prose, each with the target of its link, or
    None."""
    for line in lines_of(ROOT, page):
        if line.startswith(("#", ">", "<!--")):
            continue
        line, end = CODE.sub("", IMAGE.sub("", line)), 0
        for link in LINK.finditer(line):
            yield line[end:link.start()], None
            yield link[1], link[2]
            end = link.end()
        yield line[end:], None


def unlinked(page):
    """The words of the glossary that are no link to it where a page first uses them."""
    for word in words:
        first = re.compile(rf"\b[{word[0]}{word[0].lower()}]{word[1:]}(s|d|ed)?\b")
        for text, target in prose_of(page):
            if first.search(text):
                if target is None or path_of(page, target) != (GLOSSARY, word.lower()):
                    yield f"{page}: {word} is first used in '{text.strip()}', without a link to it"
                break


def too_short_or_long(page):
    count, (least, most) = len(read(page).split()), PAGES[page]
    if not least <= count <= most:
        yield f"{page} has {count} words, and {least} to {most} are wanted"


def faults_of_picture(path, shown):
    picture = ElementTree.fromstring(read(path))
    for name in ("title", "desc"):
        if not (picture.findtext(SVG + name) or "").strip():
            yield f"{path}: no {name}"
    if "prefers-color-scheme: dark" not in (picture.findtext(SVG + "style") or ""):
        yield f"{path}: no colours for dark pages"
    for name in ("script", "image", "use", "foreignObject"):
        if picture.find(f".//{SVG}{name}") is not None:
            yield f"{path}: has <{name}>"
    if not shown.get(path, "").strip():
        yield f"{path}: no page shows it with a text in its place"


words = [line[4:] for line in lines_of(ROOT, GLOSSARY) if line.startswith("### ")]
pictures = [os.path.relpath(it, ROOT) for it in sorted(glob.glob(f"{ROOT}/docs/pictures/*.svg"))]
shown_texts = {path_of(page, target)[0]: text
               for page in PAGES for text, target in IMAGE.findall(read(page))}
if not words or not pictures:
    tap.fail("the glossary has words, and there are pictures")
tap.report("words of the glossary lead to it at their first use",
           [it for page in PAGES for it in unlinked(page)], f"{len(words)} words")
tap.report("the pages are no longer than is read",
           [it for page in PAGES for it in too_short_or_long(page)])
tap.report("the pictures can be seen and read",
           [it for path in pictures for it in faults_of_picture(path, shown_texts)],
           f"{len(pictures)} pictures")
tap.end()
