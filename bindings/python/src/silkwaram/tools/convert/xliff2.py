"""XLIFF 2.0 (and 2.1). The name of a unit is the id of its message, since ids of XLIFF 2 take few
characters; if it has none, its id is. Several texts are a group of the type lexicat:texts."""
import re

from . import xliff_units, xml_text
from .common import Misfit, Refused
from .xliff_units import Inline, Unit, Version, entries, languages, read_group, tags

KEEPS = xliff_units.KEEPS
SPACE = "urn:oasis:names:tc:xliff:document:2.0"
TEXTS, REPEATED = "lexicat:texts", "lexicat:repeated"


def plain_of(element):
    """Characters that XML lacks are elements, each with its number."""
    if element.name != "cp":
        return None
    code = element.attributes.get("hex", "")
    if not re.fullmatch("[0-9A-Fa-f]{1,6}", code) or int(code, 16) > 0x10FFFF:
        raise Misfit("it has an element cp without a number of a character")
    return chr(int(code, 16))


INLINE = Inline("ec em mrk pc ph sc sm", plain_of)


def unit_of(element, found):
    """The unit of an element, whose segments are one text together."""
    all_sources, all_targets, is_whole, has_target = [], [], True, False
    for part in element.elements():
        if part.name not in ("segment", "ignorable"):
            if part.name != "notes":
                found.leave(f"elements {part.name}")
            continue
        sources, targets = part.elements("source"), part.elements("target")
        if len(sources) != 1 or len(targets) > 1:
            raise Misfit("a segment of it does not have one source and at most one target")
        all_sources += sources
        if targets and part.attributes.get("state") == "initial":
            found.leave("targets of the state initial")
            targets = []
        if targets and (targets[0].children or not INLINE.text_in(sources[0])):
            all_targets += targets
            has_target = True
        elif part.name == "ignorable":
            all_targets += sources
        else:
            is_whole = False
    if has_target and not is_whole:
        raise Misfit("only some of its segments are translated")
    target = INLINE.text_in(*all_targets) if has_target else None
    return Unit(INLINE.text_in(*all_sources), target,
                element.attributes.get("type") == REPEATED,
                element.attributes.get("translate") != "no")


VERSION = Version(
    "unit", ("type", TEXTS), lambda it: it.attributes.get("name", it.attributes.get("id", "")),
    unit_of, lambda it: [note for notes in it.elements("notes") for note in notes.elements("note")],
    "notes",
)


def read(data, name, args, found):
    """Takes the source and the translation of a file."""
    root = xml_text.parsed(data, name)
    if root.name != "xliff" or root.attributes.get("version") not in ("2.0", "2.1"):
        raise Refused(f"{name}: is not XLIFF 2.0"
                      + (": use the format xliff" if root.name == "xliff" else ""))
    langs = languages(root.attributes.get("srcLang", ""), root.attributes.get("trgLang", ""), name,
                      args)
    for file in root.elements():
        if file.name == "file":
            read_group(file, VERSION, langs, found)
        else:
            found.leave(f"elements {file.name}")


def element_of(number, key, it, indent, note):
    """A unit as an element."""
    attributes = xml_text.attribute("id", f"u{number}") + xml_text.attribute("name", key)
    attributes += ' translate="no"' * (not it.is_needed)
    attributes += xml_text.attribute("type", REPEATED) * it.is_repeated
    lines = [f"<unit{attributes}>"] + [f"  <notes>{note}</notes>"] * bool(note)
    lines += ["  <segment>" if it.target is None else '  <segment state="translated">',
              f"    <source>{INLINE.content(it.source)}</source>"]
    if it.target is not None:
        lines.append(f"    <target>{INLINE.content(it.target)}</target>")
    return "".join(f"{indent}{line}\n" for line in lines + ["  </segment>", "</unit>"])


def write(out, args):
    """A file of two languages."""
    number = 0

    def entry_of(key, units, note):
        nonlocal number
        number += 1
        note = f"<note>{xml_text.escaped(note)}</note>" if note else ""
        if len(units) == 1:
            return element_of(number, key, units[0], "    ", note)
        begin = (xml_text.attribute("id", f"g{number}") + xml_text.attribute("name", key)
                 + xml_text.attribute("type", TEXTS))
        inside = "".join(element_of(f"{number}-{place}", f"{key}[{place}]", it, "      ", "")
                         for place, it in enumerate(units))
        return f"    <group{begin}>\n" + f"      <notes>{note}</notes>\n" * bool(note) + inside + (
            "    </group>\n")

    inside = entries(out, args, entry_of)
    source, target = tags(args)
    return (f'<?xml version="1.0" encoding="UTF-8"?>\n<xliff version="2.0" xmlns="{SPACE}"'
            f' srcLang="{source}" trgLang="{target}">\n  <file id="f1" xml:space="preserve">\n'
            f"{inside}  </file>\n</xliff>\n").encode()
