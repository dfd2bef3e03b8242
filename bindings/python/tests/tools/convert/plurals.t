#!/usr/bin/env python3
"""Tries the plural categories of lexicat-convert: rows by hand, and its table beside
Babel's rules, for whole numbers to 1,999.

It takes what program.py says, and for Babel's rules babel for /usr/bin/python3 (Debian's
python3-babel).
"""
from program import PYTHON, fault, tap, test
from silkwaram.tools.convert import plurals
from silkwaram.tools.convert.common import Misfit

# From the charts of CLDR 41, by hand: those of whole numbers, then all.
BY_HAND = {
    "en": ("one other", "one other"), "ja": ("other", "other"), "pt-br": ("one other",
    "one many other"), "pl": ("one few many", "one few many other"),
    "cs": ("one few other", "one few many other"), "lv": ("zero one other", "zero one other"),
    "ar": ("zero one two few many other", "zero one two few many other"),
    "he": ("one two many other", "one two many other"), "ga": ("one two few many other",
    "one two few many other"), "sl": ("one two few other", "one two few other"),
}


def by_hand():
    """The categories of some languages."""
    for lang, wanted in BY_HAND.items():
        got = tuple(" ".join(names) for names in plurals.lists_of(lang))
        if got != wanted:
            fault(f"{lang}: {got}, not {wanted}")


def names():
    """What so many texts are the forms of."""
    for count, lang, wanted in [(2, "fr", "one other"), (3, "fr", "one many other"),
                                (3, "en", "zero one other"), (4, "fr", "zero one many other"),
                                (3, "pl", "one few many"), (4, "pl", "one few many other"),
                                (1, "ja", "other"), (2, "ja", "zero other")]:
        if " ".join(plurals.names_for(count, lang)) != wanted:
            fault(f"{count} texts of {lang} are {plurals.names_for(count, lang)}, not {wanted}")


def texts():
    """The texts that forms come to."""
    for forms, lang, wanted in [
            ({"one": "a", "other": "b"}, "fr", ("a", "b")),
            ({"one": "a", "few": "b", "other": "c"}, "pl", ("a", "b", "c")),
            (dict(one="a", few="b", many="c", other="c"), "pl", ("a", "b", "c")),
            (dict(one="a", few="b", many="c", other="d"), "pl", tuple("abcd")),
            (dict(zero="z", one="a", other="b"), "fr", None),
            ({"other": "b"}, "en", None), ({}, "en", None)]:
        try:
            got = plurals.texts_of(forms, lang)
        except Misfit:
            got = None
        if got != wanted:
            fault(f"{forms} of {lang} are {got}, not {wanted}")


def beside_babel(locale, unknown):
    """The table beside Babel's rules."""
    count = 0
    for lang, lists in plurals.LISTS.items():
        try:
            rule = locale.parse(lang).plural_form
        except (unknown, ValueError):
            continue
        count += 1
        whole = {rule(number) for number in range(2000)}
        every = set(rule.tags) | {"other"}
        if (set(lists[0]), set(lists[1])) != (whole, every):
            fault(f"{lang}: {lists}, and Babel has {sorted(whole)}, {sorted(every)}")
    if count < 100:
        fault(f"{count} languages were compared with Babel")
    return f"{count} of {len(plurals.LISTS)} languages"


test("plural categories of languages by hand", by_hand)
test("the forms that so many texts are", names)
test("the texts of forms", texts)
try:
    from babel import Locale, UnknownLocaleError
except ImportError:
    tap.lacks("the table beside Babel's", f"babel for {PYTHON} (python3-babel)")
else:
    test("the table beside Babel's", beside_babel, Locale, UnknownLocaleError)
tap.end()
