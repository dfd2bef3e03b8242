"""Reads the sentences of pages of Markdown and of manuals in mdoc, without blocks of code. What is
marked as code is the one word CODE, and so is a link to the glossary, which explains that word; any
other link is its text."""
import os
import re

from markdown_links import LINK, lines_of

# What is marked as code, as far as a sentence is concerned.
CODE = "CODE"
END = re.compile(r"(?<=[.!?])[*_)\"]*\s+(?=[\"(*_]*[A-Z0-9`])")
# Macros of mdoc whose arguments are code, names of files or of arguments.
OF_CODE = {"Ql", "Cm", "Fl", "Ar", "Pa", "Li", "Ev", "Nm", "Op", "Sy"}
# Sections of a manual that are no prose, and the one whose texts the program gives.
NO_PROSE = {"NAME", "SYNOPSIS", "SEE ALSO", "STANDARDS", "DIAGNOSTICS"}


def plain(text):
    """A text of Markdown without its marks."""
    text = re.sub(r"!\[[^\]]*\]\([^)]*\)", "", text)
    text = LINK.sub(lambda link: CODE if "GLOSSARY.md#" in link[2] else link[1], text)
    return re.sub(r"`+[^`]+`+", CODE, text).replace("**", "").strip()


def sentences_in(text):
    """The sentences of a plain text."""
    return [it.strip() for line in text.split("\n") for it in END.split(line) if it.strip()]


def pieces(line):
    """The texts of a line of Markdown: the cells of a row that are no lists of links, or the line
    without its mark of a list."""
    if not line.startswith("|"):
        return [re.sub(r"^\s*(?:[-*]|\d+\.|>)\s+", "", line)]
    return [it for it in line.strip("| ").split(" | ") if LINK.sub("", it).strip(" ,:-")]


def of_markdown(root, page):
    """The number of the line and the text of each sentence of a page, but headings and quotes."""
    for number, line in enumerate(lines_of(root, page), 1):
        if line.startswith(("#", "<!--", "    ", ">")):
            continue
        for piece in pieces(line):
            for sentence in sentences_in(plain(piece)):
                yield number, sentence


def words_of_macro(line):
    """What a line of mdoc adds to its paragraph."""
    name, *words = line[1:].split()
    if name == "Xr":
        return f"{words[0]}({words[1]}){''.join(words[2:])}"
    if name not in OF_CODE:
        return " ".join(words)
    end = [it for it in words if re.fullmatch(r"[.,;:)]", it)]
    return CODE + "".join(end)


def paragraphs_of(lines):
    """The number of the first line and the text of each paragraph of a manual."""
    section, is_literal, first, words = "", False, 0, []
    for number, line in enumerate([*lines, ".Pp"], 1):
        macro = line.split()[0] if line.startswith(".") else ""
        if macro in (".Bd", ".Ed"):
            is_literal = macro == ".Bd"
        if macro == ".Sh":
            section = line[4:]
        ends = macro in (".Sh", ".Ss", ".Pp", ".It", ".Bl", ".El", ".Bd", ".Ed", ".Dl")
        if ends or section in NO_PROSE or is_literal:
            if words:
                yield first, "".join(words)
            first, words = number, []
        elif macro not in (".Dd", ".Dt", ".Os"):
            first = first if words else number
            text = words_of_macro(line) if macro else line
            # (as mandoc has it, a sentence ends with its line)
            words.append(text + ("\n" if text.endswith((".", ".)", "?")) else " "))


def of_manual(root, page):
    """The number of a line near and the text of each sentence of a manual."""
    with open(os.path.join(root, page), encoding="utf-8") as file:
        lines = file.read().rstrip("\n").split("\n")
    for number, text in paragraphs_of(lines):
        for sentence in sentences_in(text):
            yield number, sentence


def sentences_of(root, page):
    """The number of the line and the text of each sentence of a page or a manual."""
    return (of_markdown if page.endswith(".md") else of_manual)(root, page)
