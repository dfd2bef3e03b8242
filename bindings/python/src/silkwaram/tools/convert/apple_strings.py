"""Strings files of iOS and macOS (Localizable.strings). The comment directly above an entry, or
after it on its line, is its note."""
import re

from .common import (
    NOTES, Misfit, Refused, comment_lines, counted, decoded, joined_comment, joined_pairs, note_of,
    quoted, stated_language, the_text,
)
from .stringsdict import VARIABLE

KEEPS = (NOTES,)
TOKEN = re.compile(r"""
    (?P<blank>\s+) | /\*(?P<comment>.*?)\*/ | //(?P<line>[^\n\r\u2028\u2029]*)
    | "(?P<text>[^"\\]*(?:\\.[^"\\]*)*)" | (?P<word>(?:[A-Za-z0-9_.$:-]|/(?![*/]))+) | (?P<sign>[=;])
    """, re.DOTALL | re.VERBOSE)
ESCAPE = re.compile(r"\\(?:[Uu]([0-9A-Fa-f]{4})|(.))", re.DOTALL)
ESCAPES = {"n": "\n", "r": "\r", "t": "\t", '"': '"', "\\": "\\", "'": "'", "a": "\a", "b": "\b",
           "f": "\f", "v": "\v", "\n": "\n"}


def tokens(text, name):
    """The tokens of a file: the kind, the text and the line of each."""
    place, line = 0, 1
    while place < len(text):
        found = TOKEN.match(text, place)
        if not found:
            what = {'"': "a text that does not end", "/": "a comment that does not end"}
            raise Refused(f"{name}: line {line} has "
                          + what.get(text[place], f"{text[place]!r}, which is nothing here"))
        yield found.lastgroup, found[found.lastgroup], line
        line += found[0].count("\n")
        place = found.end()
    yield "end", "", line


def unescaped(text, name, line):
    """A text without its escapes."""
    def character(found):
        if found[1]:
            return chr(int(found[1], 16))
        if found[2] not in ESCAPES:
            escape = f"\\{quoted(found[2])[1:-1]}"
            raise Refused(f"{name}: line {line}: {escape} is not an escape that is read here")
        return ESCAPES[found[2]]

    return joined_pairs(ESCAPE.sub(character, text))


class Entries:
    """Reads entries: `"key" = "text";`, or `"key";`, whose text is its key."""

    def __init__(self, name, lang, found):
        self.name, self.lang, self.found = name, lang, found
        self.words, self.note, self.began, self.last = [], [], 0, None

    def take(self, kind, text, line):
        """Takes a token."""
        if kind == "blank":
            if self.note and not self.words and text.count("\n") > 1:
                self.leave_note()
        elif kind in ("comment", "line"):
            self.take_comment(text, line)
        elif kind in ("text", "word"):
            self.began = self.began if self.words else line
            self.words.append((unescaped(text, self.name, line) if kind == "text" else text,))
        else:
            self.words.append(text)
            if text == ";":
                self.take_entry(line)

    def leave_note(self):
        """Counts a comment that is of no entry."""
        if self.note:
            self.found.leave("comments that stand alone")
        self.note = []

    def take_comment(self, text, line):
        """Takes a comment: that of the entry that ended on its line, or of the next one."""
        lines = comment_lines(text)
        if self.last and self.last[1] == line and not self.words:
            known = self.found.labels.get(self.found.id_of(self.last[0]), {}).get(NOTES, ())
            self.found.beside(self.last[0], NOTES, [joined_comment([*known, *lines])])
        else:
            self.note += lines

    def take_entry(self, line):
        """Takes an entry that has ended."""
        texts = [word[0] for word in self.words if isinstance(word, tuple)]
        signs = "".join(word if isinstance(word, str) else "t" for word in self.words)
        if signs not in ("t;", "t=t;"):
            raise Refused(f"{self.name}: line {self.began or line} is not an entry "
                          "\"key\" = \"text\";")
        if self.found.label(texts[0], self.lang, [texts[-1]], self.began):
            self.found.beside(texts[0], NOTES, [joined_comment(self.note)])
        self.words, self.note, self.last = [], [], (texts[0], line)


def read(data, name, args, found):
    """Takes a file in one language."""
    lang = stated_language("", args.lang, name)
    text = decoded(data, name)
    if text.startswith("bplist") or text.lstrip().startswith(("<", "{")):
        raise Refused(f"{name}: is a property list, not a strings file")
    entries = Entries(name, lang, found)
    for kind, it, line in tokens(text, name):
        if kind == "end":
            if entries.words:
                raise Refused(f"{name}: line {entries.began or line}: "
                              "the file ends within an entry")
            entries.leave_note()
        else:
            entries.take(kind, it, line)


def escaped(text):
    """A text in double quotes."""
    def character(found):
        it = found[0]
        return {"\n": "\\n", "\r": "\\r", "\t": "\\t"}.get(it) or (
            "\\" + it if it in '"\\' else f"\\U{ord(it):04X}")
    return '"' + re.sub(r'["\\\x00-\x1f\x7f\u2028\u2029]', character, text) + '"'


def comment(note):
    """A note as a comment above its entry."""
    if not note:
        return ""
    if re.search("[\x00-\x09\x0b-\x1f\x7f\u2028\u2029]", note):
        raise Misfit("its note has a control character")
    if "*/" in note:
        return "".join(f"// {line}\n" for line in comment_lines(note))
    return "/* " + "\n   ".join(comment_lines(note)) + " */\n"


def write(out, args):
    """A file in one language, in UTF-8."""
    def entry_of(key, labels):
        if len(labels[args.lang]) > 1:
            raise Misfit(f"it has {counted(labels[args.lang])}, which stringsdict takes")
        if VARIABLE.search(labels[args.lang][0]):
            raise Misfit("it is the format of a plural, which stringsdict takes")
        text = escaped(the_text(labels[args.lang]))
        return f"{comment(note_of(labels))}{escaped(key)} = {text};\n"

    return "\n".join(out.entries(args.lang, entry_of)).encode()
