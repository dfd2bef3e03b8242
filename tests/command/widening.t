#!/usr/bin/env python3
"""Counts what a widened lookup costs by fields that were made to be slow: `pick`, `lookup` and
`bundle` over 1,000 languages, by fields of 65,535 bytes, take with `--widen` at most four times the
instructions of the dearest such question without it (SECURITY.md, "What bounds a call").

The fields: each language refused by its own item and then one range repeated, the same with as many
other ranges, each prefix of long tags, and extended ranges whose subtags each of the languages has,
of 22 subtags, in another order. The dearest question without `--widen` that is known is by one tag
of 80 subtags, over and over, where each of its prefixes is a language and is refused.

Takes build/lexicat, or the command that LEXICAT names. Needed: valgrind, which counts.
"""
import concurrent.futures
import itertools
import json
import os
import subprocess
import sys

HERE = os.path.dirname(os.path.realpath(__file__))
sys.dont_write_bytecode = True
sys.path[:0] = [HERE, f"{HERE}/../lib"]
import tap  # noqa: E402
from counting import LEXICAT, instructions  # noqa: E402

LONGEST_FIELD = 65_535
LANGUAGES = 1_000
MOST_TIMES = 4
LETTERS = "abcdefghijklmnopqrstuvwxyz"


def field(ranges):
    """The ranges, as many as fit."""
    kept, size = [], -1
    for one in ranges:
        size += len(one) + 1
        if size > LONGEST_FIELD:
            break
        kept.append(one)
    return ",".join(kept)


def languages_of(parts):
    """The first thousand languages, each of a first part and others."""
    return list(itertools.islice(("-".join(it) for it in itertools.product(*parts)), LANGUAGES))


def refused(languages):
    return [f"{it};q=0" for it in languages]


def prefixes(tag):
    subtags = tag.split("-")
    return ["-".join(subtags[:count]) for count in range(1, len(subtags) + 1)]


def slow_questions():
    """The name, scheme, languages and field of each question that is widened."""
    regions = languages_of((["aa"], LETTERS, LETTERS, LETTERS))
    regions = [f"aa-{'x' * 2}{it[3]}{it[5]}{it[7]}" for it in regions]
    yield "a range repeated", "basic", regions, field(refused(regions) + ["aa"] * LONGEST_FIELD)
    others = ("".join(it) for it in itertools.product(LETTERS, repeat=3))
    yield "other ranges", "basic", regions, field(refused(regions) + list(others))
    variants = ["".join(it) for it in itertools.product("123", "abcde", "ab", "a")][:28]
    long = ["-".join(("aa", *variants[turn % 28:], *variants[:turn % 28])) + f"-{turn + 10000}"
            for turn in range(LANGUAGES)]
    each = [it for tag in long[:200] for it in prefixes(tag)]
    yield "each prefix of long tags", "basic", long, field(["aa;q=0"] + each)
    same = ["".join(it) for it in itertools.product("123", "abcde", "ab", "a")][:20]
    alike = ["-".join(("aa", *same, f"{turn + 10000}")) for turn in range(LANGUAGES)]
    turned = [f"aa-{later}-{earlier}" for earlier, later in itertools.combinations(same[:8], 2)]
    yield "extended ranges in another order", "extended", alike, field(turned * 300)


def dearest_question():
    """The dearest question that is known without `--widen`."""
    subtags = [a + b for a in LETTERS[1:] for b in LETTERS][:80]
    nested = prefixes("-".join(["aa", "x", *subtags]))
    nested.remove("aa-x")
    more = languages_of((["bb"], (a + b + c for a in LETTERS for b in LETTERS for c in LETTERS)))
    languages = (nested + more)[:LANGUAGES]
    return languages, field(refused(nested[::-1]) + nested[-1:] * LONGEST_FIELD)


def site_of(languages):
    """A site of one message that has a label in each of these languages."""
    empty = subprocess.run([LEXICAT, "new", "--site", "a"], capture_output=True, check=True).stdout
    maps = json.dumps({"m": {it: "x" for it in languages}}).encode() + b"\n"
    words = [LEXICAT, "import", "--now", "1"]
    return subprocess.run(words, input=empty + maps, capture_output=True, check=True).stdout


def words_of(command, options, languages, ranges):
    if command == "pick":
        return ["pick", *options, "--", ranges, *languages], b""
    of_message = ["--id", "m"] if command == "lookup" else []
    return [command, *of_message, *options, "--", ranges], site_of(languages)


def count(command, options, languages, ranges):
    return instructions(*words_of(command, options, languages, ranges))


def faults_of_fields(slow):
    """What is wrong with the questions themselves."""
    for name, _, languages, ranges in slow:
        count, size = len(set(languages)), len(ranges)
        if count != LANGUAGES or not LONGEST_FIELD - 300 < size <= LONGEST_FIELD:
            yield f"{name}: {count} languages, {size} bytes"


def main():
    tap.needs(LEXICAT, "valgrind")
    slow = list(slow_questions())
    tap.report("the fields are as long as they may be", list(faults_of_fields(slow)))
    with concurrent.futures.ThreadPoolExecutor(2) as pool:
        for command in ("pick", "lookup", "bundle"):
            dearest = pool.submit(count, command, [], *dearest_question())
            counts = [
                (name, pool.submit(count, command, ["--scheme", scheme, "--widen"], *asked))
                for name, scheme, *asked in slow
            ]
            for name, counted in counts:
                tap.check(f"{command}, {name}", compared, counted, dearest)
    tap.end()


def compared(counted, dearest):
    """What a question comes to beside the dearest one, or a list of one fault."""
    times = counted.result() / dearest.result()
    said = f"{counted.result() / 1e6:.0f} million instructions, {times:.2f} of the dearest"
    return [f"{said}, and at most {MOST_TIMES} are allowed"] if times > MOST_TIMES else said


if __name__ == "__main__":
    main()
