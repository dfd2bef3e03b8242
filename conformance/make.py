#!/usr/bin/env python3
"""Writes the vectors: conformance/vectors/SUBJECT.json, by the lists and grids below.

A question is here because a text of an RFC has it, because a sentence or a production decides it,
or because it takes a path through a definition that no earlier one takes. The answers are those of
reference.py; tests/conformance compares them with the library. An id is made of its question, so a
vector keeps its id as long as its question is the same. It needs Python alone.
"""
import hashlib
import itertools
import json
import os
import random
import sys

HERE = os.path.dirname(os.path.realpath(__file__))
sys.dont_write_bytecode = True
sys.path.insert(0, HERE)
import reference  # noqa: E402

# The members that a question may have, in the order in which they are written.
QUESTION = ("tag", "range", "field", "ranges", "tags", "default")


def id_of(subject, vector):
    """The id of a vector: its subject, and eight digits of the digest of its question."""
    question = [[name, vector[name]] for name in QUESTION if name in vector]
    text = json.dumps(question, separators=(",", ":"))
    return f"{subject}-{hashlib.sha256(text.encode()).hexdigest()[:8]}"


def vector_of(subject, section, question):
    answers, choices = reference.admitted(subject, question)
    vector = {"id": id_of(subject, question), **question, "answer": answers[0]}
    if len(answers) > 1:
        vector.update(admits=answers, choices=choices)
    return {**vector, "section": section}


def write(name, subject, about, questions):
    """Writes a file of vectors, each on a line, and returns how many there are."""
    vectors = {}
    for section, question in questions:
        vector = vector_of(subject, section, question)
        vectors.setdefault(vector["id"], vector)
    lines = ",\n".join(json.dumps(it, separators=(", ", ": ")) for it in vectors.values())
    head = json.dumps({"subject": subject, "about": about})[:-1]
    with open(f"{HERE}/vectors/{name}.json", "w", encoding="utf-8") as it:
        it.write(f'{head}, "vectors": [\n{lines}\n]}}\n')
    return len(vectors)


def cased(rng, tag):
    """A tag in one of the cases that people write."""
    subtags = tag.split("-")
    return rng.choice([tag, tag, tag.upper(), "-".join(
        [subtags[0]] + [it.title() if len(it) == 4 else it.upper() if len(it) == 2 else it
                        for it in subtags[1:]])])


# ---- tags: RFC 5646

# The examples of RFC 5646, appendix A, and of the sections before it.
EXAMPLES = {
    "2.2.1": "de fr ja es-419 en-US qaa mn-Cyrl-MN",
    "2.2.2": "zh-cmn-Hans-CN zh-yue-HK zh-yue zh-gan sgn-ase ar-afb zh-cmn zh-min-nan-x-a"
             " zh-abc-def-ghi zh-abc-def-ghi-Latn",
    "2.2.3": "zh-Hant zh-Hans sr-Cyrl sr-Latn sr-Latn-RS zh-Hans-CN de-Qaaa mn-Mong Latn-DE",
    "2.2.4": "de-DE en-US es-419 de-AT sr-Latn-QM sr-Qaaa-RS cmn-Hans-CN yue-HK en-001 en-840",
    "2.2.5": "sl-rozaj sl-rozaj-biske sl-nedis de-CH-1901 sl-IT-nedis hy-Latn-IT-arevela de-1996"
             " de-DE-1996 en-scotland en-boont sl-rozaj-biske-1994 sl-rozaj-1994 en-1abc"
             " ca-valencia de-Latn-1996 zh-Latn-wadegile zh-Latn-CN-pinyin fr-1694acad"
             " ja-Latn-hepburn"
             " ja-Latn-hepburn-heploc be-tarask be-1959acad",
    "2.2.6": "en-US-u-islamcal zh-CN-a-myext-x-private en-a-myext-b-another de-DE-u-co-phonebk"
             " en-a-bbb en-t-jp-latn en-0-bb en-9-abcdefgh de-u-co-phonebk-ka-shifted"
             " und-Cyrl-t-und-latn-m0-ungegn-2007 en-u-ca-buddhist-x-a ar-u-nu-latn",
    "2.2.7": "x-whatever x-fr-CH de-CH-x-phonebk az-Arab-x-AZE-derbend qaa-Qaaa-QM-x-southern"
             " x-a x-1 x-12345678 x-a-b-c x-x-x en-x-US en-x-a-b x-111-aaaaa-BBB az-Latn-x-latn"
             " zh-Hant-CN-x-private1-private2 en-x-x x-en x-i-klingon",
    "2.2.8": " ".join(sorted(reference.IRREGULAR | reference.REGULAR))
             + " en-GB-OED I-KLINGON sgn-BE-FR zh-Min-Nan art-LOJBAN zh-min-nan-hant",
    "2.2.9": "de-419-DE a-DE ar-a-aaa-b-bbb-a-ccc en-a-bbb-a-ccc de-1996-1996 sl-rozaj-biske-rozaj"
             " en-u-co-a1-u-ka-b2 de-DE-1901-1901 en-a-aa-b-bb-a-cc-x-a en-x-a-b-a en-1abc-1ABC",
    "2.1.1": "EN-us eN-Us en-LATN-us MN-cYRL-mn SGN-be-FR AZ-latn-X-LATN X-WHATEVER EN-X-A"
             " EN-A-BBB De-cH-1901 ZH-MIN-NAN",
    "2.1": "und mul mis zxx abcd abcde abcdefgh abcd-Latn abcde-DE abcdefgh-1996 en-Latn-US-1996"
           " tlh-Latn-001-1996 en-a1234 en-12345 en-1234 en-a2345678",
}
# Tags that are none, by what is wrong with them.
NO_TAGS = {
    "2.1": [
        "", "-", "--", "en-", "-en", "en--US", "en-US-", "a", "1", "12", "1en", "e1", "e1-US",
        "12-US", "123", "abc1", "abcdefghi", "en-abcdefghi", "en-US-abcdefghi", "en_US", "en.US",
        "en US", " en", "en ", "\ten", "en\n", "en\r\n", "en-US\n", "en\x0b", "en\u0000", "*",
        "en-*", "*-US", "en-U*", "@none", "en@latin", "en/US", "en-US.UTF-8", "de_DE.UTF-8",
        "en,fr", "en;q=1", "C", "POSIX", "i18n", "4", "en-\u00e9", "\u00e9n", "fran\u00e7ais",
        "\u212aok", "\u017fl", "en-\u212aana", "en-u\u017f", "\u0435n", "en\u2010US", "en\u2011US",
        "en\u2013US", "en\u00adUS", "en-US\u00a0", "en\u200bUS", "\ufeffen", "\uff45\uff4e",
        "en-\u0661\u0662\u0663", "es-\u0664\u0661\u0669", "en-\u00b9\u00b2\u00b3", "zh-\u6c49",
        "en-US-posix!", "en-US+x", "en'", "\"en\"", "en-US\\", "en:US", "<en>", "en%2DUS",
        "english language", "en-us-en_US", "default-", "en-1", "en-12", "en-a1", "en-1a",
    ],
    "2.2.1": ["a-DE", "1a", "12-34", "abcd1", "toolonglanguage", "e-US", "en1-US"],
    "2.2.2": ["abcd-xyz", "abcde-cmn", "zh-a-cmn", "zh-cmn-yue-gan-hak", "en-US-cmn", "zh-Hans-cmn",
              "zh-1996-cmn", "zh-cm1", "zh-c1n", "zh-abc-def-ghi-jkl-Latn"],
    "2.2.3": ["en-Latn-Cyrl", "en-US-Latn", "en-1996-Latn", "en-Lat1", "zh-Hans-Hant",
              "en-a-Latn-"],
    "2.2.4": ["en-US-GB", "en-US-840", "en-840-US", "en-12", "en-U1", "en-1U", "en-1996-US",
              "en-8401a9x77", "en-840-841", "en-84a", "en-Latn-U", "de-419-DE"],
    "2.2.5": ["en-abc1", "en-a123", "de-199", "de-19961996x", "en-US-ab1", "en-Latn-US-a1",
              "sl-roz1", "en-1996-a", "en-US-scotlandish", "en-ab12"],
    "2.2.6": ["en-a", "en-a-b", "en-a-b-cc", "en-a-1", "en-a-x", "en-a-x-b", "en-a-abcdefghi",
              "en-u", "en-US-u-", "en-US-u-c", "a-foo", "u-co-phonebk", "en-1", "en-9", "en-a-bb-c",
              "en-a-bb-c-d", "en-a-bb-b-x-c", "en-u-co--a", "en-a-bb-abcdefghi"],
    "2.2.7": ["x", "X", "x-", "en-x", "en-US-x", "x--a", "x-abcdefghi", "en-x-abcdefghi",
              "en-x-a_b", "x-a-", "en-x-", "x-*", "x-\u00e9", "en-a-bb-x", "x-a-b-123456789"],
    "2.2.8": ["i", "i-", "i-foo", "i-klingon-x-a", "i-klingons", "i-default-US", "en-GB-oed-x-a",
              "en-GB-oe", "sgn-BE-FR-x-a", "sgn-BE-NL-a", "sgn-CH-FR", "sgn-FR-BE", "i-lux-LU",
              "i-en", "en-US-oed", "fr-GB-oed", "en-GB-oed-US", "i-a", "sgn-BE"],
}
# A subtag of each class that the grammar tells apart.
CLASSES = {
    "letter": "a", "x": "x", "digit": "1", "2 letters": "de", "2 mixed": "d1", "2 digits": "12",
    "3 letters": "yue", "3 digits": "419", "3 mixed": "a1b", "4 letters": "latn",
    "4 from a digit": "1abc", "4 from a letter": "abc1", "5 letters": "nedis",
    "8 mixed": "a2345678", "8 letters": "scotland", "9 letters": "abcdefghi", "empty": "",
}


def tags():
    """Tags, and texts that look like tags."""
    for section, texts in EXAMPLES.items():
        for it in texts.split():
            yield section, it
    for section, texts in NO_TAGS.items():
        for it in texts:
            yield section, it
    yield from class_grid()
    yield from part_grid()
    yield from broken_tags()
    for count in (2, 3, 4, 27, 28, 29, 31, 32):
        yield "4.4.1", "-".join(["x"] + ["abcdefgh"] * count)[:9 * count]
    for last in ("a", "ab", "abc", "abcd"):
        yield "4.4.1", "en-" + "abcdefgh-" * 27 + "variant-" + last
    yield "4.4.1", "zh-Latn-CN-variant1-a-extend1-x-wadegile-private1"
    yield "4.4.1", "sl-Latn-IT-rozaj-biske-1994-x-123"
    yield "4.4.1", "en-" + "-".join(f"x{it:07}" for it in range(31))


def class_grid():
    """Every sequence of one or two classes, and of three that begins with a language."""
    for first in CLASSES.values():
        yield "2.1", first
    for both in itertools.product(CLASSES.values(), repeat=2):
        yield "2.1", "-".join(both)
    for one, two in itertools.product(list(CLASSES.values())[:-2], repeat=2):
        yield "2.1", f"en-{one}-{two}"
    for one, two in itertools.product(list(CLASSES.values())[:-2], repeat=2):
        if not (one, two) == ("a", "x"):
            yield "2.1", f"zh-hant-{one}-{two}" if len(two) < 5 else f"sr-rs-{one}-{two}"


LANGUAGES = ("de en fr zh sr sl pt es hy az ja ar".split(), "deu yue cmn gsw ast sgn".split(),
             ["abcd", "efgh"], ["abcde", "abcdefgh", "langua"])
SCRIPTS = "Latn Cyrl Hant Hans Arab Qaaa".split()
REGIONS = ("DE CH US GB CN TW IT QM".split(), "419 001 150 840".split())
VARIANTS = "nedis rozaj 1996 1901 1abc scotland abc12 a2345678 1694acad".split()
EXTENSIONS = ["u-co-phonebk", "a-myext", "t-und-latn", "1-ab", "b-ab-12-abcdefgh", "0-00"]
PRIVATES = ["x-a", "x-phonebk", "x-1-22-333", "x-private1-private2", "x-x", "x-latn-us"]


def part_grid():
    """Tags with each combination of parts that are there, in kinds that are paired by turns."""
    rng = random.Random(5646)
    kinds = itertools.product(range(4), range(4), range(2), range(3), range(3), range(3), range(2))
    for at, (language, extlangs, script, region, variants, extensions, private) in enumerate(kinds):
        if language > 1 and extlangs or extlangs > 1 and at % 5 or at % 2 and private:
            continue
        tag = [rng.choice(LANGUAGES[language])]
        tag += rng.sample(["cmn", "yue", "ase", "abc", "xyz"], extlangs)
        tag += [rng.choice(SCRIPTS)] * script
        tag += [rng.choice(REGIONS[region - 1])] if region else []
        tag += rng.sample(VARIANTS, variants)
        tag += rng.sample(EXTENSIONS, extensions)
        tag += [rng.choice(PRIVATES)] if private else []
        text = cased(rng, "-".join(tag).lower())
        if len(text) <= 35 or at % 7 == 0:
            yield ("2.2.7" if private else "2.2.6" if extensions else "2.2.5" if variants
                   else "2.2.4" if region else "2.2.3" if script else "2.2.2" if extlangs
                   else "2.2.1"), text


def broken_tags():
    """Tags of which one subtag was put elsewhere, doubled, left out or spoilt."""
    rng = random.Random(2121)
    bases = ("zh-cmn-hant-cn-pinyin-u-co-stroke-x-a1", "de-latn-ch-1901-x-foo", "sl-it-nedis-a-bb",
             "en-us-u-ca-greg-t-de", "sr-419-1994-0-ab-x-x", "abcde-latn-001-x-a")
    for base in bases:
        subtags = base.split("-")
        for at, one in enumerate(subtags):
            without = subtags[:at] + subtags[at + 1:]
            for to in {0, len(without), max(0, at - 1), at + 1} - {at}:
                yield "2.1", "-".join(without[:to] + [one] + without[to:])
            yield "2.1", "-".join(subtags[:at] + [one, one] + subtags[at + 1:])
            yield "2.1", "-".join(without)
            for spoilt in (one + "_", one[:-1] + "*", one + "abcdefgh", "\u00e4" + one[1:],
                           one + "."):
                if rng.random() < 0.4:
                    yield "2.1", "-".join(subtags[:at] + [spoilt] + subtags[at + 1:])


# ---- ranges: RFC 4647 section 2

RANGES = (
    "de en-US zh-Hant-CN a abcdefgh a-b-c zh-a-b-foo en-1 en-12345678 de-1996 i-klingon x-foo x i"
    " en-x en-x-a-b en-GB-oed sgn-BE-FR a-1-2-3-4 EN-us Z-9 de-DE-DE-DE en-a abc-d-e1f-g2"
    " zh-Hant-CN-x-private1-private2").split()
NO_RANGES = [
    "-", "en-", "-en", "en--US", "1", "1en", "12345678", "e1", "en1-US", "abcdefghi",
    "en-abcdefghi",
    "a-123456789", "en_US", "en.US", "@none", "e\u00e9", "\u212a", "\u017f", "en-\u0661",
    "en-\u212a",
    "en\u2010US", "en-\u00e9", "\u0435n", "en-US\n", "en/US", "en-US-", "--", "en---", "\ufeffen",
    "en'", "(en)", "en?", "en-U+", "en=1", "4-de", "en:fr", "de\u00a0", "x--a", "en\x00", "en-a_b"]
STARS = (
    "* *-* *-*-* *-CH *-Latn *-1996 *-a *-x-foo de-* de-*-DE de-*-*-DE zh-*-a-*-foo en-*-* de-DE-*"
    " x-* i-* *-12345678 *-a-* EN-* de-*-x-* a-*").split()
NO_STARS = ["**", "*en", "en*", "en-*a", "en-a*", "*-", "-*", "*--", "*-*-", "e*-US", "en-**",
            "*_*", "*-abcdefghi", "*1", "1-*", "*-\u00e9", "\uff0a", "\u2217", "*-en_US", "en-*-",
            "?", "*?", "en-%", "abcdefghi-*", "*-*-123456789", "*.CH", "de-\u2217-DE", "\u204e-CH"]


def ranges(extended):
    """Ranges, and texts that look like ranges."""
    for it in RANGES + NO_RANGES + STARS + NO_STARS:
        yield it
    firsts = ["a", "x", "1", "de", "d1", "12", "yue", "latn", "1abc", "scotland", "a2345678",
              "abcdefghi", "*", "@a"]
    for both in itertools.product(firsts, firsts):
        yield "-".join(both)
    if extended:
        for three in itertools.product(("*", "de", "1"), ("*", "a", "x1"), ("*", "ch", "419", "_")):
            yield "-".join(three)
        for count in (5, 17, 60, 128, 129):
            yield "-".join(["*"] * count)
    else:
        for three in itertools.product(("de", "i", "x"), ("a", "1", "*", ""), ("ch", "419", "_")):
            yield "-".join(three)
    for count in (34, 35, 36, 37, 253, 254, 255, 256, 257):
        yield ("en" + "-abcdefgh" * 30)[:count]
        yield ("a" + "-b" * 140)[:count]


def range_questions(extended):
    section = "RFC 4647 2.2" if extended else "RFC 4647 2.1"
    for it in ranges(extended):
        text = it.rstrip(" ")
        # (a library that reads lists cannot be asked for what a list is made of)
        if text and not set(text) & set(",; \t"):
            yield (section if len(text) <= 35 else "RFC 4647 4.4"), {"range": text}


# ---- fields: RFC 9110

FIELDS = {
    "RFC 9110 12.5.4": [
        "da, en-gb;q=0.8, en;q=0.7", "*", "en", "en-US,en;q=0.5", "de-CH, de;q=0.9, *;q=0.5",
        "en-US,en;q=0.9,fr;q=0.8,de;q=0.7,*;q=0.5", "fr-CH, fr;q=0.9, en;q=0.8, de;q=0.7, *;q=0.5",
        "zh-TW,zh;q=0.9,en-US;q=0.8,en;q=0.7", "pt-BR,pt;q=0.9,en-US;q=0.8,en;q=0.7", "x-pig-latin",
        "i-cherokee, en", "en, en", "en;q=0.5, en", "en-x-a-b", "a", "abcdefgh", "a-1-2", "EN-us",
        "sr-Latn-RS, sr;q=0.8, hr;q=0.6, bs;q=0.4", "de-DE-1996;q=0.123, de-Latn-DE;q=0.12",
        "zh-Hant-CN-x-private1-private2", "*, en;q=0.5", "*;q=0", "en, *;q=0", "es-419,es;q=0.9"],
    "RFC 9110 12.4.2": [
        "en;q=0", "en;q=1", "en;q=0.", "en;q=1.", "en;q=0.0", "en;q=0.00", "en;q=0.000", "en;q=1.0",
        "en;q=1.00", "en;q=1.000", "en;q=0.1", "en;q=0.01", "en;q=0.001", "en;q=0.12", "en;q=0.123",
        "en;q=0.999", "en;q=0.5", "en;q=0.50", "en;q=0.500", "en;Q=0.5", "en;Q=1",
        "en;q=0.9,de;q=1",
        "de;q=0.001,en;q=0", "en;q=0.100,fr;q=0.10,de;q=0.1", "*;q=0.1", "*;q=0.", "*;q=1.0",
        "en;q=0.010", "en;q=0.099,fr;q=0.1"],
    "RFC 9110 5.6.3": [
        "en;q=0.5", "en ;q=0.5", "en; q=0.5", "en ; q=0.5", "en  ;\tq=0.5", "en\t;\tq=0.5",
        "en , fr", "en,fr", "en ,fr", "en, fr", "en\t,\tfr", "en \t , \t fr", "en;q=0.5 , fr",
        "en;q=0.5\t,fr ;q=0.4", "en  ,  fr  ;  q=0.1  ,  de", "* ; q=0.5", "en ; Q=0.7, *"],
    "RFC 9110 5.6.1.2": [
        ",", ",,", ", ,", ",en", "en,", "en,,fr", "en, ,fr", "en,\t,fr", ",en,", ", ,en, , fr, ,",
        ",,,en;q=0.5,,,", ", ,da,en-gb;q=0.8, en ; Q=0.7,", "en,,,,fr", ",\t,", "en;q=0.5,,*;q=0.1",
        "en," + "," * 9 + "fr", "," * 8 + "en", "en" + "," * 30 + "fr", "," * 40, "en" + ", " * 25,
        "," * 100 + "de;q=0.5"],
    "RFC 9110 5.6.1": ["", "en,fr,de", "en, fr, de, it, es, pt, nl, sv, da, fi",
                       ",".join(f"{a}{b};q=0.{n}" for n, (a, b) in enumerate(
                           itertools.product("abc", "xyz"), 1))],
    "RFC 9110 5.5": [" en", "en ", "\ten", "en\t", "  en, fr  ", " ", "\t", " \t ", " *",
                     " en;q=0.5 ", " , en", "en, "],
    "RFC 4647 4.4": ["en-" + "abcdefgh-" * 4 + "a;q=0.5", "fr, en-" + "abcdefgh-" * 4 + "a, de",
                     "en-" + "abcdefgh-" * 27 + "abcdefgh", "en-" + "abcdefgh-" * 28 + "1;q=0.001",
                     "en-" + "abcdefgh-" * 28 + "12", "de, en-" + "abcdefgh-" * 28 + "12;q=0.5"],
}
NO_WEIGHTS = (
    "q q= q=- q=.5 q=00 q=00.5 q=0,5 q=0.1234 q=0.0000 q=1.0000 q=1.001 q=1.1 q=1.5 q=2 q=10 q=-1"
    " q=+1 q=-0.5 q=0x1 q=1e0 q=1e-1 q=0.5.5 q=0..5 q=. q=1.. q=high q=0.5;q=0.4 q=0.5;level=1"
    " level=1 level=1;q=0.5 q=NaN q=Infinity q=true q=0.a q=\"0.5\" q=0.5% q=\u0661 q=0.\u0665 qq=1"
    " q:0.5 w=1 =0.5 0.5 q=01 q=1,0 q=0_5 q=0.5_1 q=\uff11 q=1.0001 q=0.99999 q=1.00000").split()
BAD_ELEMENTS = [
    "en;q =0.5", "en;q= 0.5", "en;q = 0.5", "en; q= 1", "en;q=0 .5", "en;q=0. 5", "en;", "en; ",
    "en;;q=1", ";q=1", ";", "en;q=1;", "en q=1", "en fr", "en-US en", "en_US", "de_DE.UTF-8",
    "en-", "-en", "en--US", "1", "12", "1-en", "e1", "abcdefghi", "en-abcdefghi", "**", "*-",
    "*-CH",
    "de-*-DE", "en-*", "e*", "*en", "en/fr", "en|fr", "en\r", "en\n", "\nen", "en\x0b", "en\u00a0",
    "\u00a0en", "e\u00e9", "\u00e9n", "\u212aok", "en-u\u017f", "en\u2010US", "en\u2013US",
    "\"en\"",
    "(en)", "en:0.5", "en=0.5", "en&fr", "@none", "?", "en?", "<en>", "en;\u00a0q=1",
    "en\u3000;q=1",
    "en;\uff51=1", "en;q\uff1d1", "en\uff1bq=1", "de\uff0cen", "\u7b80\u4f53", "en-US;q=0.5 de",
    "q=0.5", "en; q", "en-\u0661", "en\x00", "\x00", "en;\nq=1", "en;q=1\n", "en.US", "en+fr",
    "a-123456789", "$en", "../etc", "en' OR 1=1", "en\u200b", "\ufeffen", "%65n",
    "en,fr;".split(",")[1],
    "en-x-", "x--y"]
WEIGHTED = ("en", "EN-us", "*", "zh-Hant-CN", "x-a", "de-1996", "a-b-1")
SPACED = ("", " ", "\t", "  ", " \t")


def well_formed_fields():
    for section, fields in FIELDS.items():
        for it in fields:
            yield section, it
    rng = random.Random(9110)
    weights = ["", ";q=0", ";q=1", ";q=0.5", ";Q=0.75", ";q=0.", ";q=1.", ";q=0.333", ";q=1.000",
               ";q=0.0", ";q=0.05"]
    for one, weight in itertools.product(WEIGHTED, weights):
        yield "RFC 9110 12.4.2", one + weight
    for before, after in itertools.product(SPACED, SPACED):
        yield "RFC 9110 5.6.3", f"fr;q=0.3,en{before};{after}q=0.5,de"
        yield "RFC 9110 5.6.3", f"fr{before},{after}en;q=0.5"
    for _ in range(230):
        elements = [rng.choice(WEIGHTED + tuple(RANGES)) + rng.choice(weights)
                    for _ in range(rng.randint(2, 6))]
        if rng.random() < 0.3:
            elements.insert(rng.randint(0, len(elements)), "")
        section = "RFC 9110 5.6.1.2" if "" in elements else "RFC 9110 12.5.4"
        yield section, rng.choice([",", ", ", " , ", ",\t"]).join(elements).strip(" \t")


def malformed_fields():
    for weight in NO_WEIGHTS:
        yield "RFC 9110 12.4.2", f"en;{weight}"
        yield "RFC 9110 12.4.2", f"fr;q=0.4, en;{weight}"
    for at, bad in enumerate(BAD_ELEMENTS):
        yield "RFC 9110 12.5.4", bad
        context = (f"da, {bad}", f"{bad}, da;q=0.5", f"da,{bad},fr;q=0.2", f"da, ,  {bad}")
        for it in (context[at % 4], context[(at + 1) % 4], context[(at + 2) % 4]):
            yield "RFC 9110 12.5.4", it
    for one, two in zip(BAD_ELEMENTS[::3], BAD_ELEMENTS[1::3]):
        yield "RFC 9110 2.4", f"de,{one},en;q=0.5,{two}"
    for one in WEIGHTED:
        for weight in ("q=1.001", "q=.5", "Q=0.1234", "q =1", "q="):
            yield "RFC 9110 12.4.2", f"{one};{weight}"
    yield "RFC 4647 2.1", "de, en-abcdefghi, fr"


# ---- filtering: RFC 4647 section 3.3

POOL = (
    "de de-DE de-CH de-AT de-DE-1996 de-CH-1996 de-Latn-DE de-Latn-DE-1996 de-Deva de-Deva-DE"
    " de-x-DE"
    " de-DE-x-goethe deu de-1901 en en-US en-GB en-GB-oed en-GB-scotland en-Latn-US en-x-US"
    " en-a-bbb"
    " en-US-u-ca-greg en-US-x-twain eng fr fr-CA fr-FR fr-Latn-CA fr-x-CA zh zh-Hans zh-Hant"
    " zh-Hant-TW zh-Hans-CN zh-TW zh-cmn-Hans-CN zh-yue-HK zh-Hant-CN-x-private1 zh-min-nan"
    " i-klingon"
    " i-default x-private x-de x-a-de sr sr-Latn sr-Cyrl sr-Latn-RS sr-RS sl sl-rozaj"
    " sl-rozaj-biske"
    " sl-IT-nedis sl-rozaj-1994 es es-419 es-MX az-Arab-x-AZE-derbend und und-Latn pt pt-BR"
    " sgn-BE-FR art-lojban en-1-ab en-a-bb-x-de").split()
BASIC = (
    "* de de-de de-DE-1996 de-1996 de-Latn de-x de-x-de d deu de-d DE-ch en en-g en-gb en-GB-oed"
    " en-x"
    " en-a en-a-bbb en-a-b en-US-u en-US-u-ca eng fr fr-CA fr-x zh zh-h zh-Hant zh-hant-t zh-cmn"
    " zh-min zh-min-nan zh-Hant-CN-x i i-k i-klingon i-klingon-a x x-de x-a x-private sr sr-Latn"
    " sr-RS sl sl-rozaj sl-rozaj-b sl-roza es es-4 es-419 az az-Arab-x und pt-BR pt-BR-x sgn sgn-BE"
    " sgn-BE-FR art-lojban en-1 a-b ja").split()
EXTENDED = (
    "* *-* *-DE *-CH *-Latn *-1996 *-x *-x-de *-x-DE *-de-* *-Latn-* *-a *-private *-klingon"
    " *-nedis"
    " de-* de-*-DE de-DE de-de-* de-*-*-DE de-*-1996 de-1996 de-Latn de-*-x de-*-x-* de-x-DE"
    " de-*-x-DE"
    " de-*-goethe de-x-goethe de-DE-goethe de-DE-x de-*-de-de en-US en-*-US en-*-x-US en-x-US en-a"
    " en-*-bbb en-a-bbb en-*-a-*-bbb en-ca en-u-ca en-*-u-greg en-u-greg en-us-greg zh-TW zh-*-TW"
    " zh-CN zh-Hans zh-*-CN zh-yue zh-HK zh-*-nan zh-min zh-nan zh-x-private1 zh-CN-private1 i-*"
    " i-klingon x-* x-de x-a x-a-* x-*-de *-a-de sr-RS sr-*-RS sr-Latn-RS sr-Cyrl sl-biske"
    " sl-*-biske"
    " sl-rozaj-* sl-nedis sl-1994 sl-biske-rozaj es-419 es-*-419 und-* az-x az-Arab az-*-derbend"
    " az-x-derbend az-derbend *-*-* *-FR sgn-FR sgn-*-FR sgn-BE en-1 en-1-ab en-ab en-bb en-x-de"
    " en-*-x en-de ja-* fr-CA fr-*-CA fr-Latn fr-x").split()


def sets_of(rng, single, match, sizes):
    """Sets of tags of which a range matches some and misses some."""
    hits = [it for it in POOL if match(single, it)]
    misses = [it for it in POOL if not match(single, it)]
    near = [it for it in misses if it.lower().startswith(single.lower()[:1])]
    for size in sizes:
        some = rng.sample(hits, min(len(hits), max(1, size // 2)))
        some += rng.sample(near, min(len(near), size - len(some) - 1))
        some += rng.sample(misses, min(len(misses), 1))
        some = list(dict.fromkeys(some))
        rng.shuffle(some)
        yield [cased(rng, it) for it in some]


def lists_of(rng, pool, count):
    for _ in range(count):
        yield rng.sample(pool, rng.randint(2, 4))


def basic_filtering():
    rng = random.Random(3311)
    section, lists = "RFC 4647 3.3.1", "RFC 4647 3.3"
    for one in BASIC:
        for some in sets_of(rng, one, reference.basic_match, (4, 7)):
            yield section, {"ranges": [cased(rng, one)], "tags": some}
    for one, tag in (("de-de", "de-DE-1996"), ("de-de", "de-Deva"), ("de-de", "de-Latn-DE"),
                     ("de", "deu"), ("deu", "de"), ("de-DE", "de"), ("*", "x-a"), ("de-DE-", "de")):
        if reference.BASIC_RANGE.fullmatch(one):
            yield section, {"ranges": [one], "tags": [tag]}
    yield section, {"ranges": ["de"], "tags": []}
    yield lists, {"ranges": [], "tags": ["de", "en"]}
    for some in lists_of(rng, BASIC, 130):
        yield lists, {"ranges": some, "tags": [cased(rng, it) for it in rng.sample(POOL, 9)]}
    for tags_ in (POOL[:14], POOL[14:25], POOL[30:42], POOL[42:]):
        for one in rng.sample(BASIC, 14):
            yield section, {"ranges": [one], "tags": tags_}
    for field, tags_ in weighted_lists(rng, 190):
        yield ("RFC 9110 12.4.2" if ";q=0," in field + "," else lists), {
            "field": field, "tags": tags_}


ZERO_FIELDS = (
    "en, en-GB;q=0|en en-GB en-US", "en-GB, en;q=0|en en-GB en-US", "*, en;q=0|en fr en-US",
    "en, *;q=0|en fr en-GB", "*;q=0|en fr", "en;q=0|en fr", "en;q=0, en;q=0.5|en",
    "en;q=0.5, en;q=0|en",
    "*;q=0.5, en;q=0, en-GB|en en-GB fr", "en;q=0, fr|en fr en-US fr-CA", "de-DE;q=0, de|de de-DE"
    " de-DE-1996 de-AT", "de;q=0, de-DE, de-DE-1996;q=0|de de-DE de-DE-1996 de-DE-x-goethe",
    "en;q=0, *|en fr", "zh-Hant;q=0, zh|zh-Hant zh-Hant-TW zh zh-Hans", "en, fr;q=0|de",
    "*;q=0, *|en",
    "*, *;q=0|en", "en;q=0.0, en-US;q=0.001|en en-US", "fr;q=0.000, de|fr de")


def weighted_lists(rng, count):
    for it in ZERO_FIELDS:
        field, tags_ = it.split("|")
        yield field, tags_.split()
    related = [it for it in POOL if it.split("-")[0] in ("de", "en", "zh", "sr", "sl")]
    for _ in range(count):
        base = rng.sample(related, 7)
        names = [rng.choice(list(reference.truncations(rng.choice(base)))) for _ in range(3)]
        names = [it for it in names if len(it) > 1] + rng.choice([[], [], ["*"]])
        rng.shuffle(names)
        weights = rng.sample(["", ";q=0.9", ";q=0.5", ";q=0.25"], len(names[:4]))
        if rng.random() < 0.45:
            weights[rng.randrange(len(weights))] = ";q=0"
        yield ", ".join(map("".join, zip(names, weights))), [cased(rng, it) for it in base]


def extended_filtering():
    rng = random.Random(3322)
    section = "RFC 4647 3.3.2"
    example = ["de-DE", "de-de", "de-Latn-DE", "de-Latf-DE", "de-DE-x-goethe", "de-Latn-DE-1996",
               "de-Deva-DE", "de", "de-x-DE", "de-Deva"]
    for one in ("de-*-DE", "de-DE", "DE-*-de", "de-*-*-DE", "*-DE"):
        yield section, {"ranges": [one], "tags": example}
    for one in EXTENDED:
        for some in sets_of(rng, one, reference.extended_match, (4, 7)):
            yield section, {"ranges": [cased(rng, one)], "tags": some}
    yield section, {"ranges": ["*-*"], "tags": []}
    for tags_ in (POOL[:12], POOL[12:24], POOL[24:40], POOL[40:]):
        for one in rng.sample(EXTENDED, 18):
            yield section, {"ranges": [one], "tags": tags_}
    for one, tag in new_paths():
        yield section, {"ranges": [one], "tags": [tag]}
    for some in lists_of(rng, EXTENDED, 110):
        tags_ = [cased(rng, it) for it in rng.sample(POOL, 9)]
        yield "RFC 4647 3.3", {"ranges": some, "tags": tags_}


def new_paths():
    """Pairs of a range and a tag that take a path through the steps of section 3.3.2 that no pair
    before takes; each path is the sequence of lines that reference.py goes through."""
    firsts, rest = ("de", "*"), ("*", "de", "latn", "x", "a", "1996")
    wanted = ["-".join([one, *more]) for count in range(5) for one in firsts
              for more in itertools.product(rest, repeat=count)]
    given = ("de de-de de-latn de-latn-de de-x-de de-a-de-x-de de-1996 de-latn-de-1996 de-a-latn"
             " x-de x-a-de-1996 de-de-1996-a-de de-latn-de-a-1996-x-a-de").split()
    paths = set()
    for one in wanted:
        for tag in given:
            path = path_of(reference.extended_match, one, tag)
            if path not in paths:
                paths.add(path)
                yield one, tag


def path_of(call, *given):
    """The lines of reference.py that a call goes through."""
    path = []

    def trace(frame, event, _):
        if frame.f_code is not call.__code__:
            return None
        if event == "line":
            path.append(frame.f_lineno)
        return trace
    before = sys.gettrace()
    sys.settrace(trace)
    try:
        call(*given)
    finally:
        sys.settrace(before)
    return tuple(path)


# ---- lookup: RFC 4647 section 3.4

LONG = (
    "zh-Hant-CN-x-private1-private2 de-CH-1996 en-US-u-ca-greg en-GB-oed sl-rozaj-biske-1994"
    " sr-Latn-RS-x-a de-Latn-DE-1996-x-goethe zh-cmn-Hans-CN fr-Latn-CA az-Arab-x-AZE-derbend"
    " i-klingon x-private-a x-de sgn-BE-FR zh-min-nan en-a-bbb-x-a-ccc en-x-a-b en-x-a-b-c-dd"
    " zh-a-b-foo de-x-1-2-3-four en-1-ab-2-cd es-419 hy-Latn-IT-arevela en-a-bb-b-cc pt-BR"
    " de-a-bb-cc-x-d-ee ja und-Latn-t-ja i-a-b-cde x-a-b-cde en-a-bb-x-c").split()


def lookup():
    rng = random.Random(3434)
    section = "RFC 4647 3.4"
    for one in LONG:
        steps = list(reference.truncations(one))
        for at, found in enumerate(steps):
            held = [it for it in steps[at:] if reference.parts_of(it)]
            if held:
                others = rng.sample(POOL, 2)
                some = held[:1] + [it for it in others if it.lower() not in steps]
                rng.shuffle(some)
                yield section, {"ranges": [cased(rng, one)],
                                "tags": [cased(rng, it) for it in some]}
                yield section, {"ranges": [one], "tags": [cased(rng, it) for it in reversed(held)]}
        # what truncation does not come to: longer tags, cut subtags, singletons at the end
        subtags = one.lower().split("-")
        for at in range(1, len(subtags)):
            cut = "-".join(subtags[:at])
            if cut not in steps and reference.parts_of(cut):
                yield section, {"ranges": [one], "tags": [cut]}
                yield section, {"ranges": [one], "tags": [cut, subtags[0]]
                                if reference.parts_of(subtags[0]) else [cut, "en"]}
        for more in (one + "-x-more", one.split("-")[0] + "x" if len(subtags[0]) == 2 else one):
            if reference.parts_of(more) and more != one and len(more) <= reference.LEAST_LIMIT:
                yield section, {"ranges": [one], "tags": [more]}
    for some in lists_of(rng, LONG + BASIC, 150):
        yield section, {"ranges": some, "tags": [cased(rng, it) for it in rng.sample(POOL, 6)]}
    for it in ("*|en fr", "*, en|en fr", "en, *|fr", "*, *|en", "fr, *, en|en", "*, fr-CA|fr en"):
        field, tags_ = it.split("|")
        yield section, {"ranges": field.split(", "), "tags": tags_.split()}
    yield section, {"ranges": [], "tags": ["en"]}
    yield section, {"ranges": ["en"], "tags": []}
    for field, tags_ in weighted_lists(rng, 170):
        yield section, {"field": field, "tags": tags_}
    for it in ("en;q=0.5, fr|en fr", "fr;q=0.4, en;q=0.5, de|en fr", "fr-CA, en|en fr",
               "en-US, en;q=0.9, fr;q=0.8|fr en-GB", "fr;q=0.5, en;q=0.5|en fr",
               "de-CH;q=0.3, fr-CH;q=0.7|de fr", "en;q=0.5, fr;q=0.7, en;q=0.9|en fr",
               "da, en-gb;q=0.8, en;q=0.7|en fr", "zh-TW, zh;q=0.9, en;q=0.8|zh-Hant en",
               "*, en;q=0.5|fr en", "en;q=0.001, *|fr en", "en-GB;q=0.5, en;q=0|en en-GB",
               "en-GB-scotland, en;q=0|en en-GB", "en-GB, *;q=0|en fr", "*;q=0, en|en fr"):
        field, tags_ = it.split("|")
        yield "RFC 9110 12.5.4", {"field": field, "tags": tags_.split()}
    for _ in range(40):
        some, weights = rng.sample(POOL, 6), ("", "", ";q=0.5", ";q=0.5")
        names = [rng.choice([*reference.truncations(it)]) for it in rng.sample(some, 3)]
        field = ", ".join(it + rng.choice(weights) for it in names if len(it) > 1)
        yield "RFC 9110 12.5.4", {"field": field, "tags": [cased(rng, it) for it in some]}


def lookup_default():
    rng = random.Random(3412)
    section = "RFC 4647 3.4.1"
    for some in lists_of(rng, LONG + BASIC, 150):
        tags_ = [cased(rng, it) for it in rng.sample(POOL, 5)]
        yield section, {"ranges": some, "tags": tags_, "default": rng.choice(tags_)}
    for one in ("*", "ja", "de", "x-none", "en-GB", "*-"):
        for default in ("en", "EN", "fr-CA", "i-default", "x-none"):
            if reference.BASIC_RANGE.fullmatch(one):
                yield section, {"ranges": [one], "tags": ["en", "fr-CA", "de-CH"],
                                "default": default}
    yield section, {"ranges": [], "tags": ["en", "fr"], "default": "fr"}
    for it in ("*|en fr|fr", "de, *;q=0|en fr|fr", "de, fr;q=0|en fr|fr", "de, *;q=0.5|en fr|fr",
               "en-GB, *;q=0|fr|fr", "fr-CA;q=0, de|fr-CA fr|fr-CA", "fr;q=0, de|fr-CA en|fr-CA",
               "de, fr-CA;q=0|fr fr-CA|fr", "*;q=0, fr|fr en|fr", "*;q=0, de|fr en|fr",
               "|en fr|en", ",|en fr|fr", "en;q=0|en fr|en", "en;q=0|en fr|fr", "*;q=0|en|en",
               "de;q=0.5, en;q=0.4|en fr|fr", "*, de;q=0|de en|en", "*, en;q=0|de en|en"):
        field, tags_, default = it.split("|")
        yield section, {"field": field, "tags": tags_.split(), "default": default}
    for field, tags_ in weighted_lists(rng, 90):
        yield section, {"field": field, "tags": tags_, "default": rng.choice(tags_)}


def extended_lookup():
    rng = random.Random(3343)
    section = "RFC 4647 3.4"
    for it in ("*-CH|de-CH fr-CH it-CH", "*-CH, fr|fr", "*-CH|fr", "de-*-DE|de de-DE", "de-*|de",
               "zh-*-a-*-foo|zh", "de-*-DE|de-Latn-DE de-DE", "en-*, fr|fr en", "*-*, en|en fr"):
        ranges_, tags_ = it.split("|")
        yield section, {"ranges": ranges_.split(", "), "tags": tags_.split()}
    yield "RFC 4647 3.4.1", {"ranges": ["*-CH"], "tags": ["fr", "en"], "default": "fr"}
    for one in EXTENDED:
        if "*" in one:
            for some in sets_of(rng, one, reference.extended_match, (5,)):
                yield section, {"ranges": [one], "tags": some}
    for some in lists_of(rng, EXTENDED, 60):
        yield section, {"ranges": some, "tags": [cased(rng, it) for it in rng.sample(POOL, 6)]}


def tag_questions(is_tag):
    for section, it in tags():
        if (reference.parts_of(it) is not None) == is_tag:
            yield f"RFC 5646 {section}", {"tag": it}


def field_questions(fields, is_field):
    for section, it in fields():
        if bool(reference.read_field(it, len(it))[1]) != is_field:
            yield section, {"field": it}


FILES = (
    ("tags", "tags", "tags and their parts", lambda: tag_questions(True)),
    ("no-tags", "tags", "texts that are no tags", lambda: tag_questions(False)),
    ("basic-ranges", "basic-ranges", "basic ranges, or not", lambda: range_questions(False)),
    ("extended-ranges", "extended-ranges", "extended ranges, or not",
     lambda: range_questions(True)),
    ("fields", "fields", "Accept-Language fields and their items",
     lambda: field_questions(well_formed_fields, True)),
    ("no-fields", "fields", "texts that are no such fields, and the place of the fault",
     lambda: field_questions(malformed_fields, False)),
    ("basic-filtering", "basic-filtering", "the set of tags that basic filtering finds",
     basic_filtering),
    ("extended-filtering", "extended-filtering", "the set of tags that extended filtering finds",
     extended_filtering),
    ("lookup", "lookup", "the tag that lookup finds, or null", lookup),
    ("lookup-default", "lookup", "the tag that lookup finds, else the default", lookup_default),
    ("extended-lookup", "extended-lookup", "the tag that lookup finds by extended ranges",
     extended_lookup),
)


def main():
    total = 0
    for name, subject, about, questions in FILES:
        count = write(name, subject, about, questions())
        print(f"{name}\t{count}")
        total += count
    print(f"all\t{total}")


if __name__ == "__main__":
    main()
