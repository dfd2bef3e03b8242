#!/usr/bin/env python3
"""Sees that the pages for users have the words of the field, and sentences that are read once.

A sentence, outside of code, has no word of WORDS, which says what to write instead. It does not
begin with "Where", nor with "Of" or "By" for its subject. If it has the number of an error, it has
the error's name too, as docs/REFUSALS.md gives it. On a page for users it has at most 30 words, and
none of WORDS_FOR_USERS, which pages for developers need to speak about the sources. Two things are
left out: the glossary, which explains these words; and what the program itself prints, in the
sections of docs/REFUSALS.md and the DIAGNOSTICS of lexicat(1). Needed: Python.
"""
import glob
import os
import re
import sys

HERE = os.path.dirname(os.path.realpath(__file__))
sys.dont_write_bytecode = True
sys.path[:0] = [HERE, f"{HERE}/../lib", f"{HERE}/../../tools"]
import prose  # noqa: E402
import rattle_sources as rattle  # noqa: E402
import tap  # noqa: E402

REFUSALS = "docs/REFUSALS.md"
MOST_WORDS = 30
FOR_USERS = ("README.md", "SECURITY.md", "docs/*.md", "bindings/**/README.md",
             "examples/**/README.md", "man/*.[15]")
FOR_DEVELOPERS = ("CONTRIBUTING.md", "CHANGELOG.md", "docs/maintaining/*.md")
LEFT_OUT = {"docs/GLOSSARY.md"}
# Words of this house, each with the word of the field.
WORDS = {
    r"clash(?:es|ed|ing)?": "conflict, duplicate timestamp",
    r"companions?": "tool",
    r"told": "result, sent",
    r"lies": "is mapped, is",
    r"stands?": "is",
    r"spent": "exhausted",
    r"lent": "borrowed",
    r"(?<!in )(?<!take )(?<!takes )(?:its|the|whose|least) place of": "index",
}
# Those that are names in the sources too, so that pages for developers may have them.
WORDS_FOR_USERS = {
    r"stamps?": "timestamp",
    r"refusals?": "error",
}
# How the lines of docs/REFUSALS.md begin that have what the program prints.
PRINTED = ("- **Rule:**", "- **Cause:**", "- **What to do:**")
# The pages that say what a word of the documents means.
MAY_SAY = {"docs/COMMAND.md": r"stamps?", "docs/FORMATS.md": r"stamps?",
           "man/lexicat-formats.5": r"stamps?", "README.md": r"stamps?"}
BEGINNING = re.compile(r"(?:Where(?! to)|Of|By (?!default|convention|hand))\b")
NUMBERS = r"(\d{1,2}(?:(?:, | and | or )\d{1,2})*)"
NUMBERED = re.compile(rf"(?<![\w.])\({NUMBERS}[,;)]|"
                      rf"\b(?:errors?|refusals?|refused(?: by)?) {NUMBERS}\b")
# A fault of each kind, and what is found of it.
PLANTED = {
    "They clash.": "'clash' is: conflict, duplicate timestamp",
    "It has a stamp.": "'stamp' is: timestamp",
    "It is a refusal.": "'refusal' is: error",
    "Of two the later wins.": "begins with 'Of'",
    "By these it ends.": "begins with 'By'",
    "**Where it fails**, stop.": "begins with 'Where'",
    "It is refused (13).": "13 is 'duplicate timestamp'",
    "It ends with error 14.": "14 is 'clock exhausted'",
    "It" + " has" * MOST_WORDS + ".": f"has {MOST_WORDS + 1} words",
    "By default it ends with `clash` (13, duplicate timestamp). See lexicat(1).": None,
    "Where to begin: see REFUSALS, and [clash](GLOSSARY.md#clash).": None,
}


def pages_of(patterns):
    """The pages of some patterns, by their paths."""
    found = {os.path.relpath(path, rattle.ROOT) for pattern in patterns
             for path in glob.glob(os.path.join(rattle.ROOT, pattern), recursive=True)}
    return sorted(found - LEFT_OUT)


def names_of_errors():
    """The name of each error, by its number."""
    headings = re.findall(r"^### (\d+), (.+)$", rattle.read(REFUSALS), re.M)
    return {int(number): name for number, name in headings}


def is_printed(page, line):
    """Whether a line has what the program prints."""
    return page == REFUSALS and line.startswith(("`", *PRINTED))


def words_in(sentence, page, words):
    """The words of this house in a sentence; one in capitals is the name of a page."""
    for word, better in words.items():
        found = re.search(rf"\b{word}\b", sentence, re.I)
        if found and not found[0].isupper() and MAY_SAY.get(page) != word:
            yield f"'{found[0]}' is: {better}"


def beginnings_in(sentence):
    """The beginning of a sentence that has no subject there, or has "where" for "if"."""
    found = BEGINNING.match(sentence.lstrip("*_("))
    if found:
        yield f"begins with '{found[0].strip()}'"


def numbers_in(sentence, names):
    """The numbers of errors in a sentence that does not name them."""
    for found in NUMBERED.finditer(sentence):
        for number in map(int, re.findall(r"\d+", found[1] or found[2])):
            if number in names and names[number].lower() not in sentence.lower():
                yield f"{number} is '{names[number]}'"


def lengths_in(sentence):
    """The length of a sentence that has too many words."""
    count = len(re.findall(r"\w[\w'.-]*", sentence))
    if count > MOST_WORDS:
        yield f"has {count} words"


def faults_in(sentence, page, names, is_for_users):
    """What is wrong with a sentence."""
    yield from words_in(sentence, page, WORDS)
    yield from beginnings_in(sentence)
    yield from numbers_in(sentence, names)
    if is_for_users:
        yield from words_in(sentence, page, WORDS_FOR_USERS)
        yield from lengths_in(sentence)


def faults_of(page, names, is_for_users):
    """The faults of a page, each with its line."""
    lines = rattle.read(page).split("\n")
    for number, sentence in prose.sentences_of(rattle.ROOT, page):
        if is_printed(page, lines[number - 1]):
            continue
        for fault in faults_in(sentence, page, names, is_for_users):
            yield f"{page}:{number}: {fault}: {sentence}"


def faults_of_text(text, names):
    """The faults of a text on a page for users."""
    return [fault for sentence in prose.sentences_in(prose.plain(text))
            for fault in faults_in(sentence, "docs/PAGE.md", names, True)]


def unfound(names):
    """What is not found of a planted fault of each kind, or found where there is none."""
    for text, wanted in PLANTED.items():
        found = faults_of_text(text, names)
        if found != ([wanted] if wanted else []):
            yield f"{text}: {found}"


def misread():
    """What is not read as it has to be of a manual."""
    manual = [".Sh NAME", "Of names", ".Sh DESCRIPTION", "It is refused (13).", "Of", ".Ar site",
              "it is one."]
    read = [it for _, text in prose.paragraphs_of(manual) for it in prose.sentences_in(text)]
    if read != ["It is refused (13).", f"Of {prose.CODE} it is one."]:
        yield f"a manual is read as {read}"


names = names_of_errors()
tap.report("each error has a name", [] if sorted(names) == list(range(1, 32)) else [str(names)])
tap.report("a planted fault of each kind is found", list(unfound(names)))
tap.report("a manual is read by its sentences", list(misread()))
for patterns, is_for_users in (FOR_USERS, True), (FOR_DEVELOPERS, False):
    for page in pages_of(patterns):
        tap.report(f"the words of {page}", list(faults_of(page, names, is_for_users)))
tap.end()
