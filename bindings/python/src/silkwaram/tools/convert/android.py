"""String resources of Android (strings.xml): strings, plurals and arrays of strings. The comment
directly above one is its note; its attributes besides the name are kept in x-android."""
import re

from . import android_text, plurals, xml_text
from .common import (
    ARRAY, FORMS, NOTES, PLURAL, Misfit, Refused, comment_lines, is_plural, joined_comment,
    note_of, quoted, stated_language,
)
from .xml_text import Comment, Element

ATTRIBUTES = "x-android"
KEEPS = (NOTES, FORMS, ATTRIBUTES)
UNFORMATTED = ("formatted", "false")
KINDS = {"string": None, "plurals": PLURAL, "string-array": ARRAY}


def items(element, key, found):
    """The items of plurals or of an array."""
    for it in element.children:
        if isinstance(it, Comment):
            found.leave("comments inside plurals and arrays")
        elif isinstance(it, str) and it.strip():
            raise Misfit(f"it has a text beside its items: {quoted(it.strip()[:40])}")
    for it in element.elements():
        if it.name != "item":
            raise Misfit(f"it has the element {it.name}")
    return element.elements()


def texts_of(element, key, lang, args, found):
    """The texts of a resource."""
    if element.name == "string":
        return [android_text.read(element)]
    its = items(element, key, found)
    texts = [android_text.read(it) for it in its]
    if element.name == "string-array":
        if not texts:
            raise Misfit("it is an empty array")
        return texts
    names = [it.attributes.get("quantity", "") for it in its]
    if not set(names) <= set(plurals.ORDER) or len(set(names)) != len(names):
        raise Misfit(f"its quantities are {quoted(' '.join(names))}")
    return plurals.texts_of(dict(zip(names, texts)), lang, args.plurals)


def read_resource(element, note, lang, args, found):
    """Takes one resource."""
    key = element.attributes.get("name")
    if element.name not in KINDS or key is None:
        found.misfit(key or element.name, f"the element {element.name} is not a string with a name",
                     element.line)
        return
    try:
        texts = texts_of(element, key, lang, args, found)
    except Misfit as why:
        found.misfit(key, why, element.line)
        return
    if not found.label(key, lang, texts, element.line):
        return
    found.beside(key, NOTES, [note])
    kind = KINDS[element.name]
    if kind == ARRAY or kind == PLURAL and len(texts) == 1:
        found.beside(key, FORMS, [kind])
    # (what goes out has it by itself)
    is_marked = element.name == "string" and android_text.wants_places(texts[0])
    attributes = []
    for name, value in element.attributes.items():
        if ":" in name:
            found.leave(f"attributes {name}")
        elif name != "name" and not (is_marked and (name, value) == UNFORMATTED):
            attributes.append(f"{name}={value}")
    found.beside(key, ATTRIBUTES, attributes)


def read(data, name, args, found):
    """Takes a file in one language."""
    lang = stated_language("", args.lang, name)
    root = xml_text.parsed(data, name)
    if root.name != "resources":
        raise Refused(f"{name}: its root element is {root.name}, not resources")
    note = []
    for it in root.children:
        if isinstance(it, Element):
            read_resource(it, joined_comment(note), lang, args, found)
            note = []
        elif isinstance(it, Comment):
            note += comment_lines(it.text)
        elif it.strip():
            raise Refused(f"{name}: has a text outside its strings: {it.strip()[:40]!r}")
        elif note and it.count("\n") > 1:
            found.leave("comments that stand alone")
            note = []
    if note:
        found.leave("comments that stand alone")


def attributes_of(labels):
    """The attributes of a resource besides its name, as text by their names."""
    written = {}
    for text in labels.get(ATTRIBUTES, ()):
        name, equals, value = text.partition("=")
        if not re.fullmatch(r"[A-Za-z_][\w.-]*", name, re.ASCII) or not equals or name == "name":
            raise Misfit(f"its label in {ATTRIBUTES} has a text that is not an attribute")
        if name in written:
            raise Misfit(f"its label in {ATTRIBUTES} has the attribute {name} twice")
        written[name] = xml_text.attribute(name, value)
    return written


def write(out, args):
    """A file in one language."""
    is_xliff_used = False

    def content(text):
        nonlocal is_xliff_used
        written, has_xliff = android_text.write(text)
        is_xliff_used = is_xliff_used or has_xliff
        return written

    def entry_of(key, labels):
        texts, is_array = labels[args.lang], labels.get(FORMS) == (ARRAY,)
        attributes = attributes_of(labels)
        is_string = not is_array and len(texts) == 1 and not is_plural(labels)
        if is_string and "formatted" not in attributes and android_text.wants_places(texts[0]):
            attributes[UNFORMATTED[0]] = xml_text.attribute(*UNFORMATTED)
        begin = xml_text.attribute("name", key) + "".join(attributes.values()) + ">"
        note = "\n    ".join(comment_lines(note_of(labels))) if note_of(labels) else ""
        above = xml_text.comment(note, "    ") if note else ""
        if is_string:
            return f"{above}    <string{begin}{content(texts[0])}</string>\n"
        if is_array:
            kind, named = "string-array", [("", text) for text in texts]
        else:
            forms = plurals.forms_of(texts, args.lang, args.plurals)
            kind = "plurals"
            named = [(xml_text.attribute("quantity", name), forms[name])
                     for name in plurals.ORDER if name in forms]
        lines = "".join(f"        <item{name}>{content(text)}</item>\n" for name, text in named)
        return f"{above}    <{kind}{begin}\n{lines}    </{kind}>\n"

    entries = "".join(out.entries(args.lang, entry_of))
    space = xml_text.attribute("xmlns:xliff", android_text.XLIFF) if is_xliff_used else ""
    return (f'<?xml version="1.0" encoding="utf-8"?>\n<resources{space}>\n'
            f"{entries}</resources>\n").encode()
