"""XLIFF 1.2. The id of a unit is that of its message. Several texts are a group of the type
x-gettext-plurals, as gettext's PO files are in XLIFF."""
from . import xliff_units, xml_text
from .common import Misfit, Refused
from .xliff_units import Inline, Unit, Version, entries, languages, read_group, tags

KEEPS = xliff_units.KEEPS
SPACE = "urn:oasis:names:tc:xliff:document:1.2"
PLURALS, REPEATED = "x-gettext-plurals", "x-repeated"
UNFINISHED = ("new", "needs-")


def plain_of(element):
    """A marker of a segment is no part of a text."""
    return "" if element.name == "mrk" and element.attributes.get("mtype") == "seg" else None


INLINE = Inline("bpt bx ept ex g it mrk ph sub x", plain_of)


def unit_of(element, found):
    """The unit of an element."""
    sources, targets = element.elements("source"), element.elements("target")
    if len(sources) != 1 or len(targets) > 1:
        raise Misfit("it does not have one source and at most one target")
    target = None
    if targets and targets[0].attributes.get("state", "").startswith(UNFINISHED):
        found.leave("targets that are new or need work")
    elif targets:
        target = INLINE.text_in(targets[0])
        # (programs make an empty target of what is not translated)
        if target == "" and INLINE.text_in(sources[0]) != "":
            target = None
    for other in element.elements():
        if other.name not in ("source", "target", "note", "seg-source"):
            found.leave(f"elements {other.name}")
    return Unit(INLINE.text_in(sources[0]), target, element.attributes.get("extype") == REPEATED,
                element.attributes.get("translate") != "no")


VERSION = Version(
    "trans-unit", ("restype", PLURALS), lambda it: it.attributes.get("id", ""), unit_of,
    lambda it: it.elements("note"), "note",
)


def read(data, name, args, found):
    """Takes the source and the translation of a file."""
    root = xml_text.parsed(data, name)
    if root.name != "xliff" or root.attributes.get("version") not in ("1.0", "1.1", "1.2"):
        raise Refused(f"{name}: is not XLIFF 1.2"
                      + (": use the format xliff2" if root.name == "xliff" else ""))
    for file in root.elements():
        if file.name != "file":
            found.leave(f"elements {file.name}")
            continue
        langs = languages(file.attributes.get("source-language", ""),
                          file.attributes.get("target-language", ""), name, args)
        for part in file.elements():
            if part.name == "body":
                read_group(part, VERSION, langs, found)
            else:
                found.leave(f"elements {part.name}")


def element_of(key, it, indent, note):
    """A unit as an element."""
    attributes = xml_text.attribute("id", key)
    # (programs do not look for this above a unit)
    attributes += ' xml:space="preserve"' + ' translate="no"' * (not it.is_needed)
    attributes += xml_text.attribute("extype", REPEATED) * it.is_repeated
    lines = [f"<trans-unit{attributes}>", f"  <source>{INLINE.content(it.source)}</source>"]
    if it.target is not None:
        lines.append(f"  <target>{INLINE.content(it.target)}</target>")
    lines += [f"  {note}"] * bool(note) + ["</trans-unit>"]
    return "".join(f"{indent}{line}\n" for line in lines)


def write(out, args):
    """A file of two languages."""
    def entry_of(key, units, note):
        note = f"<note>{xml_text.escaped(note)}</note>" if note else ""
        if len(units) == 1:
            return element_of(key, units[0], "      ", note)
        inside = "".join(element_of(f"{key}[{place}]", it, "        ", "")
                         for place, it in enumerate(units))
        begin = xml_text.attribute("id", key) + xml_text.attribute("restype", PLURALS)
        return f"      <group{begin}>\n" + f"        {note}\n" * bool(note) + inside + (
            "      </group>\n")

    inside = entries(out, args, entry_of)
    source, target = tags(args)
    return (f'<?xml version="1.0" encoding="UTF-8"?>\n<xliff version="1.2" xmlns="{SPACE}">\n'
            f'  <file original="lexicat" datatype="plaintext" source-language="{source}"'
            f' target-language="{target}">\n    <body>\n{inside}'
            "    </body>\n  </file>\n</xliff>\n").encode()
