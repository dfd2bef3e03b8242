"""PO files of gettext: read line by line, so that one that was cut is refused, and written."""
import codecs
import re
from typing import Dict, Iterator, List, Optional, Tuple

from ._shared import Refused

# A line with a text: its mark of an obsolete or of a previous one, its keyword, and the text.
LINE = re.compile(
    r'(#~\||#~|#\||)\s*(?:(msgctxt|msgid_plural|msgid|msgstr(?:\[(\d)\])?)\s*)?'
    r'"([^"\\]*(?:\\.[^"\\]*)*)"'
)
COMMENT = re.compile(r"(?:#~\s*)?#(?![~|])([.:,=]?) ?(.*)|#~|")
ESCAPE = re.compile(r"\\(?:x([0-9A-Fa-f]+)|([0-7]{1,3})|(.))")
ESCAPES = {
    "a": "\a", "b": "\b", "f": "\f", "v": "\v", "n": "\n", "r": "\r", "t": "\t", '"': '"', "\\": "\\",
}
ESCAPED = {"\\": "\\\\", '"': '\\"', "\n": "\\n", "\t": "\\t", "\r": "\\r"}
# The keywords as letters, but those of plural forms as their digits; and an entry of them.
LETTERS = {"msgctxt": "c", "msgid": "i", "msgid_plural": "p", "msgstr": "s"}
WHOLE = re.compile(r"c?i(?:s|p(\d+))")
# The fields of a header in the order in which gettext writes them.
FIELDS = (
    "Project-Id-Version", "Report-Msgid-Bugs-To", "POT-Creation-Date", "PO-Revision-Date",
    "Last-Translator", "Language-Team", "Language", "MIME-Version", "Content-Type",
    "Content-Transfer-Encoding", "Plural-Forms",
)


class Entry:
    """An entry as it is written: its texts and comments. `places` are its references, each a name
    and a line, which may be empty."""

    def __init__(self, is_obsolete: bool = False) -> None:
        self.is_obsolete = is_obsolete
        self.context: Optional[str] = None
        self.id = self.plural = self.text = ""
        self.forms: Dict[int, str] = {}
        self.note = self.comment = ""
        self.flags: List[str] = []
        self.places: List[Tuple[str, str]] = []

    def add(self, keyword: str, form: Optional[int], text: str) -> None:
        """Takes a line of text."""
        if keyword == "msgctxt":
            self.context = (self.context or "") + text
        elif keyword == "msgid":
            self.id += text
        elif keyword == "msgid_plural":
            self.plural += text
        elif form is None:
            self.text += text
        else:
            self.forms[form] = self.forms.get(form, "") + text

    def written(self) -> str:
        """The entry as a file has it."""
        lines = [f"# {it}" for it in self.comment.split("\n") if self.comment]
        lines += [f"#. {it}" for it in self.note.split("\n") if self.note]
        if self.places:
            lines.append("#: " + " ".join(name + (f":{line}" if line else "") for name, line in self.places))
        if self.flags:
            lines.append("#, " + ", ".join(self.flags))
        if self.context is not None:
            lines += _text_lines("msgctxt", self.context)
        lines += _text_lines("msgid", self.id)
        if self.plural:
            lines += _text_lines("msgid_plural", self.plural)
            for form, text in sorted(self.forms.items()):
                lines += _text_lines(f"msgstr[{form}]", text)
        else:
            lines += _text_lines("msgstr", self.text)
        return "".join(f"{it}\n" for it in lines)


class File:
    """A PO file: the comment and the fields of its header, and its entries."""

    def __init__(self, comment: str = "", fields: Optional[Dict[str, str]] = None) -> None:
        self.comment, self.fields = comment, fields or {}
        self.entries: List[Entry] = []

    def __iter__(self) -> Iterator[Entry]:
        return iter(self.entries)

    def written(self) -> str:
        """The file as it is written."""
        head = "".join(f"# {it}".rstrip() + "\n" for it in self.comment.split("\n"))
        known = [it for it in FIELDS if it in self.fields]
        others = sorted(it for it in self.fields if it not in FIELDS)
        header = Entry()
        header.text = "".join(f"{it}: {self.fields[it]}\n" for it in [*known, *others])
        return head + "\n".join(it.written() for it in [header, *self.entries]) + "\n"


def _text_lines(keyword: str, text: str) -> List[str]:
    """The lines of a text, each to its line feed."""
    parts = re.findall("[^\n]*\n|[^\n]+", text) or [""]
    if len(parts) > 1:
        parts = ["", *parts]
    return [f'{keyword} "{_escaped(parts[0])}"'] + [f'"{_escaped(it)}"' for it in parts[1:]]


def _escaped(text: str) -> str:
    return re.sub(r'[\\"\n\t\r]', lambda it: ESCAPED[it[0]], text)


def _unescaped(text: str) -> str:
    """A text without its escapes; raises ValueError if one is none that is read here."""

    def character(found: "re.Match[str]") -> str:
        digits, octal, letter = found.groups()
        if letter is not None:
            if letter not in ESCAPES:
                raise ValueError(found[0])
            return ESCAPES[letter]
        code = int(digits or octal, 16 if digits else 8)
        if code >= 128:
            raise ValueError(found[0])
        return chr(code)

    return ESCAPE.sub(character, text)


def _decoded(data: bytes, name: str) -> str:
    """The text of a file, in the encoding that its header states, or else in UTF-8."""
    found = re.search(rb"Content-Type: *text/plain; *charset=([\w.:-]+)", data, re.IGNORECASE)
    charset = found[1].decode() if found else "utf-8"
    try:
        codecs.lookup(charset)
    except LookupError:
        charset = "utf-8"
    try:
        return data[3 * data.startswith(codecs.BOM_UTF8) :].decode(charset)
    except (LookupError, ValueError) as fault:
        raise Refused(f"{name}: {fault}") from None


class _Reader:
    """Makes entries of lines."""

    def __init__(self) -> None:
        self.entries: List[Entry] = []
        self.comments: List[Tuple[str, str]] = []
        self.keyword, self.form = "", None  # type: Tuple[str, Optional[int]]
        # (of each keyword its letter, and the number of its line)
        self.order, self.numbers = "", []  # type: Tuple[str, List[int]]

    def take(self, line: str, number: int) -> None:
        """Takes a line; raises ValueError if it is none."""
        found = COMMENT.fullmatch(line)
        if found:
            if found[1] is not None:
                self.comments.append((found[1].replace("=", ","), found[2]))
            return
        found = LINE.fullmatch(line)
        if not found:
            raise ValueError(line)
        mark, keyword, form, text = found.groups()
        if "|" in mark:
            return
        text = _unescaped(text)
        if keyword:
            letter = form or LETTERS[keyword]
            self.order += letter
            self.numbers.append(number)
            if keyword == "msgctxt" or keyword == "msgid" and self.keyword != "msgctxt":
                self.begin(bool(mark))
            self.keyword, self.form = keyword, int(form) if form else None
        if not self.entries:
            raise ValueError(line)
        self.entries[-1].add(self.keyword, self.form, text)

    def begin(self, is_obsolete: bool) -> None:
        """Begins an entry, with the comments above it."""
        entry = Entry(is_obsolete)
        of = lambda sign: [text for its, text in self.comments if its == sign]
        entry.note, entry.comment = "\n".join(of(".")), "\n".join(of(""))
        entry.flags = [it.strip() for text in of(",") for it in text.split(",")]
        for it in (place for text in of(":") for place in text.split()):
            name, _, line = it.rpartition(":")
            entry.places.append((name, line) if name and re.fullmatch("[0-9]+", line) else (it, ""))
        self.comments = []
        self.entries.append(entry)

    def check(self, name: str) -> None:
        """Refuses entries that are not whole."""
        place = 0
        while place < len(self.order):
            found = WHOLE.match(self.order, place)
            if not found or not "0123456789".startswith(found[1] or ""):
                raise Refused(f"{name}: the entry at line {self.numbers[place]} is not whole")
            place = found.end()
        if not self.order:
            raise Refused(f"{name}: has no entry")


def parsed(data: bytes, name: str) -> File:
    """The file of these bytes. Refused if a line or an entry was cut."""
    reader = _Reader()
    for number, line in enumerate(re.split("\r\n|\r|\n", _decoded(data, name)), 1):
        try:
            reader.take(line.strip(), number)
        except ValueError:
            raise Refused(f"{name}: line {number} is not a whole line of a PO file") from None
    reader.check(name)
    file, header = File(), None
    for it in reader.entries:
        if header is None and it.id == "" and it.context is None and not it.is_obsolete:
            header = it
            file.comment, file.fields = it.comment, _fields(it.text)
        else:
            file.entries.append(it)
    return file


def _fields(text: str) -> Dict[str, str]:
    """The fields of a header."""
    fields: Dict[str, str] = {}
    for line in text.split("\n"):
        key, colon, value = line.partition(":")
        if colon:
            fields[key] = value.strip()
    return fields
