"""What both versions of XLIFF share: the units of a message, and the message of units. A label of
one text is a unit; one of several texts is a group with a unit for each. If the source has fewer
texts than the translation, its last one is repeated, and the unit says so; if it has more, the
units that the translation does not need are not to be translated. A text with elements in it, as
placeholders, is XML in its label."""
from typing import Any, Callable, List, NamedTuple, Tuple

from . import android_text, plurals, xml_text
from .common import ARRAY, FORMS, NOTES, Misfit, Refused, cased, is_plural, note_of, stated_language

KEEPS = (NOTES,)


class Unit:
    """A unit: its texts, of which the target may be none, and what is said of them."""

    def __init__(self, source, target, is_repeated=False, is_needed=True):
        self.source, self.target = source, target
        self.is_repeated, self.is_needed = is_repeated, is_needed


class Inline:
    """The elements that a version of XLIFF has in a text, by their names, and what it has in a text
    in place of an element that is no part of one; None for all others."""

    def __init__(self, names, plain_of):
        self.names, self.plain_of = frozenset(names.split()), plain_of

    def text_in(self, *parts):
        """The text of a source or a target, or of those of some segments. One with elements is XML;
        one that could be taken for such is a section of CDATA."""
        if any(map(self._has_elements, parts)):
            return "".join(self._written(it, xml_text.escaped) for it in parts)
        text = "".join(self._written(it, str) for it in parts)
        return in_cdata(text) if self._is_xml(text) else text

    def content(self, text):
        """What an element has for a text."""
        return text if self._is_xml(text) else xml_text.escaped(text)

    def _has_elements(self, element):
        return any(self.plain_of(it) is None or self._has_elements(it) for it in element.elements())

    def _written(self, element, escaped):
        text = ""
        for it in element.children:
            if isinstance(it, xml_text.Element):
                plain = self.plain_of(it)
                if plain is not None:
                    text += escaped(plain) + self._written(it, escaped)
                elif it.name not in self.names:
                    raise Misfit(f"it has an element {it.name} in its text")
                else:
                    inside = self._written(it, escaped)
                    text += xml_text.opened(it) + (
                        f">{inside}</{it.name}>" if it.children else "/>")
            elif isinstance(it, str):
                text += escaped(it)
        return text

    def _is_xml(self, text):
        """Whether a label is XML: it has elements, or is such a text in a section of CDATA."""
        root = android_text.fragment(text)
        if root is None or root.elements():
            return root is not None and self._are_known(root)
        inside = self._written(root, str)
        return in_cdata(inside) == text and self._is_xml(inside)

    def _are_known(self, element):
        return all(it.name in self.names and self._are_known(it) for it in element.elements())


def in_cdata(text):
    """A text as a section of CDATA, or two if it has the end of one."""
    return "<![CDATA[" + text.replace("]]>", "]]]]><![CDATA[>") + "]]>"


class Version(NamedTuple):
    """How a version of XLIFF has units: the name of their element, the attribute of the group of a
    message with several of them, what gives their key and makes a unit, the elements of notes, and
    the name of the elements that have these."""
    unit: str
    several: Tuple[str, str]
    key_of: Callable[[Any], str]
    unit_of: Callable[[Any, Any], Unit]
    notes_of: Callable[[Any], List[Any]]
    notes: str


def read_group(element, version, langs, found):
    """Takes the units that are in an element."""
    for it in element.elements():
        attribute, value = version.several
        is_several = it.name == "group" and it.attributes.get(attribute) == value
        if it.name == "group" and not is_several:
            read_group(it, version, langs, found)
        elif it.name == version.unit or is_several:
            units = it.elements(version.unit) if is_several else [it]
            notes = filter(None, (note.text().strip() for note in version.notes_of(it)))
            key = version.key_of(it)
            try:
                made = [version.unit_of(unit, found) for unit in units]
                take(key, made, "\n".join(notes), langs, it.line, found)
            except Misfit as why:
                found.misfit(key, why, it.line)
        elif it.name != version.notes or element.name == "file":
            found.leave(f"elements {it.name}")


def languages(source, target, name, args):
    """The languages that a file states, which are those of the options."""
    source = stated_language(source, args.source, name, "--source")
    target = stated_language(target, args.lang, name)
    if source == target:
        raise Refused(f"{name}: its language is that of the source")
    return source, target


def take(key, units, note, langs, line, found):
    """Takes the labels of the units of a message."""
    source, target = langs
    sources = [it.source for it in units if not it.is_repeated]
    targets = [it.target for it in units if it.target is not None]
    if any(it.target is None for it in units[:len(targets)]) or (
            targets and any(it.target is None and it.is_needed for it in units)):
        found.misfit(key, "only some of its texts are translated", line)
        targets = []
    if not sources:
        found.misfit(key, "has no source", line)
    elif found.label(key, source, sources, line):
        if targets:
            found.label(key, target, targets, line)
        found.beside(key, NOTES, [note])


def units_of(labels, args):
    """The units of a message."""
    if args.source not in labels:
        raise Misfit(f"it has no label in {args.source}")
    sources, targets = labels[args.source], labels.get(args.lang, ())
    count = len(targets)
    if not targets:
        lists = plurals.lists_of(args.lang, args.plurals)
        is_form = lists and is_plural(labels) and labels.get(FORMS) != (ARRAY,)
        count = len(lists[0]) if is_form else len(sources)
    units = []
    for place in range(max(len(sources), count)):
        units.append(Unit(sources[min(place, len(sources) - 1)],
                          targets[place] if place < len(targets) else None,
                          place >= len(sources), place < count))
    for it in units:
        if it.target == "" and it.source:
            raise Misfit(f"its label in {args.lang} has an empty text, which is not a translation")
        for text in (it.source, it.target or ""):
            xml_text.checked(text)
    xml_text.checked(note_of(labels))
    return units


def entries(out, args, entry_of):
    """What a function makes of each message: its key, its units and its note."""
    if "@none" in (args.lang, args.source):
        raise Refused("XLIFF has no language tag for @none")

    def units_and_note(key, labels):
        return entry_of(key, units_of(labels, args), note_of(labels))

    return "".join(out.entries((args.source, args.lang), units_and_note))


def tags(args):
    """The languages as attributes have them."""
    return cased(args.source), cased(args.lang)
