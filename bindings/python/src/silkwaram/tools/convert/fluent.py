"""Fluent (.ftl): messages, terms, whose ids begin with a hyphen, and their attributes, as
`message.attribute`. A text is the pattern as it is written, with its placeables. The comment
directly above a message is its note."""
import re

from .common import (
    NOTES, Misfit, Refused, comment_lines, decoded, joined_comment, note_of, stated_language,
    the_text,
)
from .fluent_pattern import IDENTIFIER, Fault, Reader, dedented, pattern_of

KEEPS = (NOTES,)
COMMENT = re.compile(r"(#{1,3})(?: ([^\n]*))?(?:\n|$)")
KEY = re.compile(rf"(-?{IDENTIFIER.pattern})(?:\.({IDENTIFIER.pattern}))?")


class Entries:
    """Reads the entries of a file."""

    def __init__(self, text, lang, found):
        self.reader, self.lang, self.found, self.note = Reader(text), lang, found, []
        self.known = (0, 1)

    def line(self, place):
        """The number of the line of a place, which is behind the last one that was asked for."""
        if place < self.known[0]:
            self.known = (0, 1)
        lines = self.known[1] + self.reader.text.count("\n", self.known[0], place)
        self.known = (place, lines)
        return lines

    def all(self):
        """Takes each entry."""
        reader = self.reader
        while reader.place < len(reader.text):
            if reader.take(re.compile(r" *(?:\n|$)")) is not None:
                self.leave_note()
            elif reader.text[reader.place] == "#":
                self.comment()
            else:
                self.entry()
        self.leave_note()

    def leave_note(self):
        """Counts a comment that is of no message."""
        if self.note:
            self.found.leave("comments that stand alone")
        self.note = []

    def comment(self):
        """Takes a line of a comment."""
        line = self.reader.take(COMMENT)
        if line is None:
            raise self.reader.fault("a comment has a blank after its signs")
        signs, text = COMMENT.match(line).groups()
        if signs == "#":
            self.note.append((text or "").strip())
        else:
            self.leave_note()
            self.found.leave("comments of groups and files")

    def value(self, key, place):
        """Takes a pattern as the label of a key."""
        text = dedented(self.reader.pattern())
        return self.found.label(key, self.lang, [text], self.line(place))

    def entry(self):
        """Takes a message or a term with its attributes."""
        reader, begin = self.reader, self.reader.place
        key = ("-" if reader.sign("-") else "") + reader.identifier()
        reader.inline_blank()
        reader.expect("=")
        reader.inline_blank()
        attribute = re.compile(r"(?: *\n)+ *\.")
        is_term, has_value = key.startswith("-"), False
        if is_term or not attribute.match(reader.text, reader.place):
            has_value = self.value(key, begin)
        if has_value:
            self.found.beside(key, NOTES, [joined_comment(self.note)])
            self.note = []
        while reader.take(attribute):
            place, name = reader.place, reader.identifier()
            reader.inline_blank()
            reader.expect("=")
            reader.inline_blank()
            self.value(f"{key}.{name}", place)
        self.leave_note()
        if reader.place < len(reader.text) and not reader.sign("\n"):
            raise reader.fault("a brace closes nothing")


def read(data, name, args, found):
    """Takes a file in one language."""
    lang = stated_language("", args.lang, name)
    entries = Entries(decoded(data, name).replace("\r\n", "\n"), lang, found)
    try:
        entries.all()
    except Fault as why:
        raise Refused(f"{name}: line {entries.line(why.place)}: {why}") from None


def write(out, args):
    """A file in one language."""
    messages, notes = {}, {}

    def entry_of(key, labels):
        parts = KEY.fullmatch(key)
        if not parts:
            raise Misfit("it is not a name of Fluent, with at most one attribute after a dot")
        try:
            pattern = pattern_of(the_text(labels[args.lang]))
        except Fault as why:
            raise Misfit(f"its text is not a pattern of Fluent: {why}") from None
        name, attribute = parts.groups()
        if attribute and name.startswith("-") and name not in messages:
            raise Misfit(f"it is an attribute of the term {name}, which has no text")
        messages.setdefault(name, {})[attribute] = pattern
        if attribute is None:
            notes[name] = note_of(labels)
        elif note_of(labels):
            out.left_out["notes of attributes, for which this format has no place"] += 1

    for _ in out.entries(args.lang, entry_of):
        pass
    written = []
    for name, parts in messages.items():
        comment = "".join(f"# {line}".rstrip() + "\n" for line in comment_lines(
            notes[name])) if notes.get(name) else ""
        attributes = "".join(
            f"\n    .{attribute} =" + re.sub(r"\n(?=[^\n])", "\n    ", pattern)
            for attribute, pattern in parts.items() if attribute)
        written.append(f"{comment}{name} ={parts.get(None, '')}{attributes}\n")
    return "\n".join(written).encode()
