"""Texts of Android's string resources: their escapes and quotes, blanks that count as one, and
markup. A text with markup is XML in language maps too, as `<b>Hi</b> &amp; you`; all else is there
as it reads. A text that reads like XML and is none, as `&lt;b&gt;`, is there in CDATA."""
import re

from . import xml_text
from .common import Misfit, Refused, joined_pairs, quoted
from .xml_text import Cdata, Comment, Element

# The blanks that Android takes together: those of ASCII alone, as aapt2 does.
BLANK = "\t\n\x0b\x0c\r "
# Those that go out as escapes, as other readers may take more of them together.
ESCAPED_BLANK = BLANK + "\u1680\u2000-\u2006\u2008-\u200a\u2028\u2029\u205f\u3000"
ESCAPES = {"n": "\n", "t": "\t", "'": "'", '"': '"', "\\": "\\", "@": "@", "?": "?", "#": "#",
           " ": " "}
REFERENCE = re.compile(
    r"@[+*]?([\w.]+:)?\w+/[\w./]+|@null|@empty|\?([\w.]+:)?(\w+/)?[\w.]+")
PIECE = re.compile(
    rf"\\u([0-9A-Fa-f]{{4}})|\\(.)|(\")|([{BLANK}])|(\\)|([^\\\"{BLANK}]+)", re.DOTALL)
XLIFF = "urn:oasis:names:tc:xliff:document:1.2"


class Reader:
    """Takes pieces of text and tags, and gives the text without escapes and without blanks that do
    not count. Tags have no part in that."""

    def __init__(self):
        self.pieces, self.blank, self.is_quoted, self.is_begun = [], None, False, False

    def hard(self, text):
        """Takes characters that stay."""
        self.pieces.append(text)
        self.blank, self.is_begun = None, True

    def text(self, text, written):
        """Takes a text; `written` makes of its characters what is wanted."""
        for found in PIECE.finditer(text):
            code, letter, quote, blank, cut, other = found.groups()
            if code:
                self.hard(written(chr(int(code, 16))))
            elif letter:
                if letter not in ESCAPES:
                    raise Misfit(f"it has \\{quoted(letter)[1:-1]}, which is not an escape")
                self.hard(written(ESCAPES[letter]))
            elif quote:
                self.is_quoted = not self.is_quoted
            elif blank and not self.is_quoted:
                if self.is_begun and self.blank is None:
                    self.blank = len(self.pieces)
                    self.pieces.append(" ")
            elif cut:
                raise Misfit("it ends with a backslash")
            else:
                self.hard(written(blank or other))

    def tag(self, text):
        """Takes a tag."""
        self.pieces.append(text)

    def whole(self):
        """The text."""
        if self.is_quoted:
            raise Misfit("it has a double quote that is not closed")
        if self.blank is not None:
            self.pieces[self.blank] = ""
        return joined_pairs("".join(self.pieces))


def fragment(text):
    """The element around a text that is XML with elements or CDATA; None for any other text."""
    if "<" not in text:
        return None
    try:
        root = xml_text.parsed(f"<r>{text}</r>".encode(), "")
    except (Refused, UnicodeEncodeError):
        return None

    def is_markup(element):
        return any(isinstance(it, (Element, Cdata)) for it in element.children)
    return root if is_markup(root) else None


def tags(element, reader, written):
    """Passes what is in an element to a reader."""
    for it in element.children:
        if isinstance(it, Element):
            prefix, colon, _ = it.name.partition(":")
            if colon and prefix != "xliff":
                raise Misfit(f"it has the element {it.name}")
            reader.tag(xml_text.opened(it) + (">" if it.children else "/>"))
            tags(it, reader, written)
            if it.children:
                reader.tag(f"</{it.name}>")
        elif not isinstance(it, Comment):
            reader.text(it, written)


def read(element):
    """The text of an element."""
    raw = element.text().strip()
    if not element.elements() and REFERENCE.fullmatch(raw):
        raise Misfit(f"it refers to another resource, {raw}")
    reader = Reader()
    is_xml = bool(element.elements())
    tags(element, reader, xml_text.escaped if is_xml else str)
    text = reader.whole()
    if not is_xml and fragment(text) is not None:
        if "]]>" in text:
            raise Misfit("it looks like XML with a CDATA section, but is not")
        return f"<![CDATA[{text}]]>"
    return text


def escaped(text, begin, end):
    """A part of a text with the escapes of Android."""
    def character(found):
        it, place = found[0], found.start()
        if it in "\\'\"":
            return "\\" + it
        if it in "\n\t":
            return {"\n": "\\n", "\t": "\\t"}[it]
        if it == " " and 0 < place < len(text) - 1 and not text[place - 1].isspace():
            return it
        return f"\\u{ord(it):04X}"
    # (each match is at its place in the whole text)
    pattern = re.compile(rf"[\\'\"{ESCAPED_BLANK}\x00-\x1f\x7f\ufffe\uffff]")
    written, at = [], begin
    for found in pattern.finditer(text, begin, end):
        written += [text[at:found.start()], character(found)]
        at = found.end()
    written = "".join(written) + text[at:end]
    return "\\" + written if begin == 0 and text[:1] in ("@", "?") and begin < end else written


# A substitution of java.util.Formatter as aapt2 looks for it: its place, if it has one, and whether
# what follows is of a date, of which aapt2 asks no places.
SUBSTITUTION = re.compile(r"%(?![%n])(?:(?P<place>\d+\$)|\d+|<\$?)?[-#+ ,(0-9]*(?P<date>[DFKMWZ])?")


def wants_places(text):
    """Whether aapt2 refuses a text, as it has several substitutions and not all with their
    places."""
    found = list(SUBSTITUTION.finditer(text.replace("%%", "").replace("%n", "")))
    return (len(found) > 1 and not any(it["date"] for it in found)
            and not all(it["place"] for it in found))


def write(text):
    """A text as the content of an element, and whether it has elements of XLIFF. Android, or this
    program, would read some texts otherwise, which are refused."""
    written, has_xliff = content(text)
    again = read(xml_text.parsed(f"<r>{written}</r>".encode(), "a text"))
    if again != text and content(again)[0] != written:
        raise Misfit("its text would read otherwise in a file of Android")
    return written, has_xliff


def content(text):
    """The same, of any text."""
    root = fragment(text)
    if root is None:
        return xml_text.escaped(escaped(text, 0, len(text))), False
    whole, written, has_xliff = all_text(root), [], False
    place = 0

    def inside(element):
        nonlocal has_xliff, place
        for it in element.children:
            if isinstance(it, Comment):
                raise Misfit("it has a comment of XML")
            if isinstance(it, str):
                piece = escaped(whole, place, place + len(it))
                place += len(it)
                written.append(f"<![CDATA[{xml_text.checked(piece)}]]>" if isinstance(it, Cdata)
                               else xml_text.escaped(piece))
                continue
            prefix, colon, _ = it.name.partition(":")
            if colon and prefix != "xliff":
                raise Misfit(f"it has the element {it.name}")
            has_xliff = has_xliff or bool(colon)
            written.append(xml_text.opened(it) + (">" if it.children else "/>"))
            inside(it)
            if it.children:
                written.append(f"</{it.name}>")
    inside(root)
    return "".join(written), has_xliff


def all_text(element):
    """The text in an element and in all of its elements."""
    return "".join(all_text(it) if isinstance(it, Element) else it for it in element.children
                   if not isinstance(it, Comment))
