#!/usr/bin/env python3
"""Sees that each refusal has one number, one word and one text wherever it is written down.

Compared are: the sections of docs/REFUSALS.md; the faults of the sources (crates/*/src/*fault*.rt,
the text of each variant with the number that it answers); the text that
crates/front_core/src/refusal.rt has for the library, which is that of the page, or the one that the
page names under "The library"; the word, what is wanted, the cause and what to do as that file has
them, with which the lines of a section have to begin; and the items of DIAGNOSTICS in
man/lexicat.1, each of which is a number, a word, a text, what is wanted and what to do. The numbers
are 1 to 31, each once. It reads files, and needs Python alone.
"""
import os
import re
import sys

HERE = os.path.dirname(os.path.realpath(__file__))
sys.dont_write_bytecode = True
sys.path[:0] = [f"{HERE}/../lib", f"{HERE}/../../tools"]
import rattle_sources as rattle  # noqa: E402
import tap  # noqa: E402

PAGE = "docs/REFUSALS.md"
MANUAL = "man/lexicat.1"
EXPLAINED = "crates/front_core/src/refusal.rt"
PARTS = ("the word", "what is wanted", "cause", "what to do")
SECTION = re.compile(r"^### (\d+), .+\n\n`([a-z0-9-]+)`: (.+)\n\n- \*\*Rule:\*\* (.+)\n- \*\*Cause:\*\* (.+)\n"
                     r"- \*\*What to do:\*\* (.+)$", re.M)
ALL = set(range(1, 32))
ERROR = re.compile(r'#\[error\("([^"]*)"(?:, (.*))?\)\]')
faults = []
fault = faults.append


def sections(page):
    """The number of each section, its word, its text, what is wanted, the cause and what to do."""
    for number, word, *parts in SECTION.findall(page):
        yield int(number), word, parts


def page_texts(page):
    """The texts of the page, the one for runs (a second text, which is appended) among them."""
    texts = {}
    for number, _, parts in sections(page):
        quoted = re.findall(r"`([^`]+)`", parts[0])
        if number in texts:
            fault(f"{PAGE}: {number} has two sections")
        texts[number] = [quoted[0]] + [quoted[0] + more for more in quoted[1:]]
    if list(texts) != sorted(ALL):
        fault(f"{PAGE}: the sections are not those of 1 to {max(ALL)}, each once and in order")
    return texts


def constant(crate, name):
    """The number of a constant of a crate."""
    for path in rattle.source_files(crate):
        number = rattle.constants_of(rattle.read(path)).get(name)
        if number:
            return number.replace("_", "")
    return name


def as_written(crate, text, arguments):
    """The text of a fault as pages write it, with a word in capitals for what is filled in."""
    places = []
    for argument in re.split(r", ", arguments or ""):
        if " = " in argument:
            name, value = argument.split(" = ")
            if re.fullmatch(r"[A-Z_]+", value):
                text = text.replace(f"{{{name}}}", constant(crate, value))
        elif argument:
            places.append(argument.replace(".as_str()", "").split(".")[-1])
    for place in places:
        text = text.replace("{}", place.upper(), 1)
    return re.sub(r"\{(\w+)\}", lambda found: found.group(1).upper(), text)


def fault_texts(path):
    """The number and the text of each variant of a source that has both."""
    source = rattle.read(path)
    numbers = dict(re.findall(r"::(\w+)(?: \{ \.\. \}|\(_\))? => (\d+),", source))
    for attribute, variant in rattle.variants_of(source):
        found = ERROR.match(attribute)
        if found and variant in numbers:
            yield int(numbers[variant]), as_written(path.split("/")[1], *found.groups())


def check_sources(texts):
    """Each fault of the sources has a text of the page, and each number a fault."""
    seen = set()
    for crate in rattle.crates():
        for path in rattle.source_files(crate) if not crate.endswith("_tests") else []:
            if "fault" not in os.path.basename(path):
                continue
            for number, text in fault_texts(path):
                seen.add((number, text))
                if text not in texts.get(number, []):
                    fault(f"{path}: {number} is '{text}', which {PAGE} does not say")
    for number, written in texts.items():
        for text in written:
            if (number, text) not in seen:
                fault(f"{PAGE}: {number} is '{text}', which no fault of the sources says")


def joined(text):
    """A text of the sources, whose lines a backslash joins."""
    return re.sub(r"\\\n +", "", text)


def explained_texts():
    """The text of each number, its word, what is wanted, the cause and what to do, by the source."""
    rows = re.findall(
        r'^ +// (\d+)\n +Refusal \{\s+code: "([^"]*)",\s+text: "([^"]*)",\s+meaning: "([^"]*)",'
        r'\s+cause: "([^"]*)",\s+remedy: "([^"]*)",\s+\},', rattle.read(EXPLAINED), re.M)
    if [int(number) for number, *_ in rows] != sorted(ALL):
        fault(f"{EXPLAINED}: the numbers are not 1 to {max(ALL)}, each once and in order")
    return {int(number): (joined(text), word, joined(meaning), joined(cause), joined(remedy))
            for number, word, text, meaning, cause, remedy in rows}


def check_library(page, written, explained):
    """The library's text is that of the section, or another that the page names."""
    section = page.split("\n## The library\n")[-1].split("\n## ")[0]
    named = {int(number): text for number, text in re.findall(r"of (\d+) `([^`]+)`", section)}
    for number, (text, *_) in explained.items():
        wanted = named.get(number, written.get(number, [""])[0])
        if text != wanted:
            fault(f"{EXPLAINED}: {number} is '{text}', where {PAGE} says '{wanted}'")
        if number in named and named[number] in written.get(number, []):
            fault(f"{PAGE}: the library's text of {number} is named, and is that of the section")


def plain(part):
    """A part of a section without links and marks of code."""
    return re.sub(r"\[([^]]*)\]\([^)]*\)", r"\1", part).replace("`", "")


def check_explained(page, texts):
    """The parts of the sections begin with the texts of the source."""
    for number, word, (_, *parts) in sections(page):
        for name, part, text in zip(PARTS, [word, *parts], texts.get(number, ())[1:]):
            if not re.match(re.escape(text) + r"($|;| \()", plain(part)):
                fault(f"{PAGE}: {name} of {number} does not begin with '{text}'")


def words_of(text):
    """The words of a text, or of lines of mdoc without its macros, without regard to case."""
    lines = [re.sub(r"^\.[A-Z][a-z]( |$)", "", line) for line in text.split("\n")]
    return re.findall(r"\w+", " ".join(lines).lower())


def check_manual(texts, explained):
    """The manual's items are the page's sections, with what is wanted and what to do."""
    text = rattle.read(MANUAL).split(".Sh DIAGNOSTICS")[-1].split("\n.Sh ")[0].split("\n.El")[0]
    items = re.findall(r"^\.It (\d+) (\S+)\n\.Sy (.*?) \.\n((?:(?!\.It ).*(?:\n|$))*)", text, re.M)
    listed = {int(number): (word, item, body) for number, word, item, body in items}
    if sorted(int(number) for number, *_ in items) != sorted(ALL):
        lacking = sorted(ALL - set(listed))
        fault(f"{MANUAL}: the items are not 1 to {max(ALL)}, each once (not there: {lacking})")
    for number, (word, item, body) in sorted(listed.items()):
        if item not in texts.get(number, [])[:1]:
            fault(f"{MANUAL}: {number} is '{item}', which {PAGE} does not say")
        _, named, wanted, _, remedy = explained.get(number, ("", "", "", "", ""))
        if word != named:
            fault(f"{MANUAL}: {number} has the word '{word}', and not '{named}'")
        if words_of(body) != words_of(f"{wanted} {remedy}"):
            fault(f"{MANUAL}: {number} has other words than '{wanted}' and '{remedy}'")


def compared(name, look, *words):
    """Reports what a look finds wrong, and answers what it answers."""
    faults.clear()
    answer = look(*words)
    tap.report(name, faults)
    return answer


page = rattle.read(PAGE)
texts = compared("the page has each number once and in order", page_texts, page)
tap.note(f"{len(texts)} refusals")
compared("the faults of the sources have the texts of the page", check_sources, texts)
explained = compared("the library explains each number once and in order", explained_texts)
compared("the parts of a section begin as the library explains", check_explained, page, explained)
compared("the items of the manual are the sections of the page", check_manual, texts, explained)
compared("the library has the texts of the page, or those named", check_library, page, texts,
         explained)
tap.end()
