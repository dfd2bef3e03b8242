"""String catalogs of Xcode 15 and later (Localizable.xcstrings): all languages in one file. A
message without a text in the source language has its key as that text. Plurals are labels of
several texts. The extraction state of an entry is kept in x-xcode."""
import json
import re

from . import plurals
from .common import (
    ARRAY, FORMS, NOTES, PLURAL, Misfit, Refused, cased, note_of, plain, quoted, read_object,
    stated_language,
)

STATE = "x-xcode"
KEEPS = (NOTES, FORMS, STATE)


def member(value, name, kind):
    """A member of an object, which is of a type."""
    found = value.get(name) if isinstance(value, dict) else None
    if not isinstance(found, kind):
        raise Misfit(f"it has no {name} as catalogs have it")
    return found


def text_of(value, found):
    """The text of a string unit; None if it is not translated yet."""
    others = set(value) - {"stringUnit"}
    if others:
        raise Misfit(f"it has {quoted(sorted(others)[0])} beside a text")
    unit = member(value, "stringUnit", dict)
    if unit.get("state") != "translated":
        found.leave("texts that are not marked as translated")
        return None
    return member(unit, "value", str)


def texts_of(value, lang, args, found):
    """The texts of a localization; none if it is not translated yet."""
    if "variations" not in value:
        text = text_of(value, found)
        return () if text is None else (text,)
    ways = member(value, "variations", dict)
    if set(value) != {"variations"} or set(ways) != {"plural"}:
        raise Misfit(f"it varies by {quoted(sorted(set(value) | set(ways) - {'plural'})[0])}")
    forms = {name: text_of(it, found) for name, it in member(ways, "plural", dict).items()}
    return () if None in forms.values() else plurals.texts_of(forms, lang, args.plurals)


def read_entry(key, value, source, args, found):
    """Takes the labels of a message."""
    if value.get("shouldTranslate") is False:
        found.leave("messages that are not to be translated")
        return
    labels = {
        stated_language(lang, None, found.name): it
        for lang, it in value.get("localizations", {}).items()
    }
    if source not in labels:
        found.label(key, source, [key])
    for lang, it in labels.items():
        if args.lang not in (None, lang) and lang != source:
            continue
        try:
            texts = texts_of(it, lang, args, found)
        except Misfit as why:
            found.misfit(key, f"in {lang}: {why}")
            continue
        if texts and found.label(key, lang, texts) and len(texts) == 1 and "variations" in it:
            found.beside(key, FORMS, [PLURAL])
    found.beside(key, NOTES, [value.get("comment", "")])
    found.beside(key, STATE, [value.get("extractionState", "")])


def read(data, name, args, found):
    """Takes a catalog, or of it the language --lang and the source."""
    try:
        catalog = plain(read_object(data, name))
        entries = member(catalog, "strings", dict)
        source = stated_language(
            member(catalog, "sourceLanguage", str), args.source, name, "--source"
        )
    except Misfit as why:
        raise Refused(f"{name}: is not a string catalog: {why}") from None
    for key, value in entries.items():
        if not key:
            found.leave("entries without a key")
            continue
        try:
            read_entry(key, value, source, args, found)
        except (AttributeError, TypeError):
            found.misfit(key, "it is not an entry as catalogs have it")


def unit(text):
    """A translated text."""
    return {"stringUnit": {"state": "translated", "value": text}}


def localization(texts, labels, lang, args):
    """The texts of a label as a catalog has them."""
    lists = plurals.lists_of(lang, args.plurals)
    is_only_form = labels.get(FORMS) == (PLURAL,) and lists and len(lists[0]) == 1
    if len(texts) == 1 and not is_only_form:
        return unit(texts[0])
    forms = plurals.forms_of([unit(text) for text in texts], lang, args.plurals)
    return {"variations": {"plural": forms}}


def entry(key, labels, langs, args):
    """The entry of a message."""
    if args.source not in labels:
        raise Misfit(f"it has no label in {args.source}")
    if labels.get(FORMS) == (ARRAY,):
        raise Misfit("it is an array, for which this format has no place")
    made = {
        cased(lang): localization(labels[lang], labels, lang, args)
        for lang in langs
        if lang in labels and not (lang == args.source and labels[lang] == (key,))
    }
    its = {"localizations": made, "comment": note_of(labels)}
    its["extractionState"] = "".join(labels.get(STATE, ()))
    return {name: value for name, value in its.items() if value}


def write(out, args):
    """A catalog of all languages, or of --lang and the source, laid out as Xcode does it."""
    langs = {lang for labels in out.messages.values() for lang in labels}
    langs = {it for it in langs if not it.startswith("x-") and args.lang in (None, it)}
    if "@none" in langs:
        raise Refused("string catalogs have no language tag for @none")
    langs = sorted(langs | {args.source})
    strings = dict(out.entries(langs, lambda key, labels: (key, entry(key, labels, langs, args))))
    catalog = {"sourceLanguage": cased(args.source), "strings": strings, "version": "1.0"}
    text = json.dumps(
        catalog, ensure_ascii=False, indent=2, separators=(",", " : "), sort_keys=True
    )
    return re.sub(r'^(    ".*" : )\{\}(,?)$', r"\1{\n\n    }\2", text, flags=re.MULTILINE).encode()
