"""XML as elements, comments and texts, read without any entity of its own, and written."""
import re
from xml.parsers import expat

from .common import DEPTH, Misfit, Refused

# What XML 1.0 has no character for.
NO_XML = re.compile("[^\t\n\r\x20-\ud7ff\ue000-\ufffd\U00010000-\U0010ffff]")


class Element:
    """An element: its name, attributes and line, and the texts, comments and elements in it."""

    def __init__(self, name, attributes, line):
        self.name, self.attributes, self.line = name, attributes, line
        self.children = []

    def elements(self, *names):
        """The elements in it, or those of these names."""
        return [it for it in self.children if isinstance(it, Element)
                and (not names or it.name in names)]

    def text(self):
        """The text in it, without that of its elements."""
        return "".join(it for it in self.children if isinstance(it, str))


class Comment:
    """A comment, with its line."""

    def __init__(self, text, line):
        self.text, self.line = text, line


class Cdata(str):
    """A text in a section of CDATA."""


class Unwanted(Exception):
    """What an XML file here must not have."""


class _Builder:
    """Makes elements of what the parser tells."""

    def __init__(self, doctype, size):
        self.parser = expat.ParserCreate()
        self.root, self.open, self.in_cdata = None, [], False
        # (so that a text is one piece, if nothing comes between)
        self.parser.buffer_text = True
        self.parser.buffer_size = min(max(size, 1), 1 << 26)
        self.parser.StartElementHandler = self.start
        self.parser.EndElementHandler = self.end
        self.parser.CharacterDataHandler = self.characters
        self.parser.CommentHandler = self.comment
        self.parser.StartCdataSectionHandler = self.start_cdata
        self.parser.EndCdataSectionHandler = self.end_cdata
        self.parser.StartDoctypeDeclHandler = self.doctype
        self.parser.EntityDeclHandler = self.entity
        self.parser.ExternalEntityRefHandler = self.entity
        self.parser.SkippedEntityHandler = self.entity
        self.takes_doctype = doctype

    def start(self, name, attributes):
        if len(self.open) >= DEPTH:
            raise Unwanted(f"elements are nested more than {DEPTH} deep")
        element = Element(name, attributes, self.parser.CurrentLineNumber)
        if self.open:
            self.open[-1].children.append(element)
        else:
            self.root = element
        self.open.append(element)

    def end(self, _):
        self.open.pop()

    def characters(self, text):
        if not self.open:
            return
        kind, children = Cdata if self.in_cdata else str, self.open[-1].children
        if children and type(children[-1]) is kind:
            text = children.pop() + text
        children.append(kind(text))

    def comment(self, text):
        if self.open:
            self.open[-1].children.append(Comment(text, self.parser.CurrentLineNumber))

    def start_cdata(self):
        self.in_cdata = True

    def end_cdata(self):
        self.in_cdata = False

    def doctype(self, *words):
        if not self.takes_doctype or words[3]:
            raise Unwanted("it has a document type, which is not read: remove it")

    def entity(self, *_):
        raise Unwanted("it has entities of its own, which are not read")


def parsed(data, name, doctype=False):
    """The root element of an XML file; `doctype` is whether it may name a document type."""
    builder = _Builder(doctype, len(data))
    try:
        builder.parser.Parse(data, True)
    except Unwanted as why:
        raise Refused(f"{name}: line {builder.parser.CurrentLineNumber}: {why}") from None
    except expat.ExpatError as fault:
        raise Refused(f"{name}: line {fault.lineno} is not XML: "
                      f"{expat.errors.messages[fault.code]}") from None
    except (LookupError, ValueError, UnicodeError) as fault:
        raise Refused(f"{name}: not XML: {fault}") from None
    return builder.root


def checked(text):
    """A text that XML can have."""
    found = NO_XML.search(text)
    if found:
        raise Misfit(f"a text of it has the character U+{ord(found[0]):04X}, "
                     "which XML does not have")
    return text


def escaped(text):
    """A text in an element."""
    return (checked(text).replace("&", "&amp;").replace("<", "&lt;").replace(">", "&gt;")
            .replace("\r", "&#13;"))


def attribute(name, text):
    """An attribute with a blank before it."""
    text = escaped(text).replace('"', "&quot;").replace("\n", "&#10;").replace("\t", "&#9;")
    return f' {name}="{text}"'


def comment(text, indent):
    """A comment on lines of its own. (Two hyphens are none in XML.)"""
    if "--" in text or text.endswith("-"):
        raise Misfit("its note has two hyphens, or one at its end, "
                     "which a comment of XML cannot have")
    return f"{indent}<!-- {checked(text)} -->\n"


def opened(element):
    """The opening tag of an element, as a text."""
    return f"<{element.name}" + "".join(
        attribute(name, text) for name, text in element.attributes.items())
