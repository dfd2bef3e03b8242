"""Files of java.util.Properties, as ResourceBundle reads them: UTF-8, or else ISO-8859-1. They are
written in ASCII but for comments, with other characters as \\uXXXX, so both readings are one.
Comments directly above a key are its note."""
import re

from .common import (
    NOTES, Refused, comment_lines, joined_comment, joined_pairs, note_of, stated_language,
    the_text,
)

KEEPS = (NOTES,)
BLANKS = " \t\f"
ESCAPES = {"t": "\t", "n": "\n", "r": "\r", "f": "\f"}
ESCAPED = {text: "\\" + letter for letter, text in ESCAPES.items()}


def text_of(data, name):
    """The text of a file, in one of both encodings."""
    data = data[3:] if data.startswith(b"\xef\xbb\xbf") else data
    if data[:2] in (b"\xff\xfe", b"\xfe\xff") or b"\0" in data:
        raise Refused(f"{name}: is in UTF-16, or is not a text")
    try:
        return data.decode("utf-8")
    except UnicodeDecodeError:
        return data.decode("iso-8859-1")


def logical_lines(text, name):
    """The lines with a key, each with its number and the comment above it; and how many comments
    stand alone."""
    lines, comment, alone, whole, begun = [], [], 0, "", 0
    natural = re.split(r"\r\n|\r|\n", text)
    # (the last line has an end, or there is none)
    for number, line in enumerate(natural if natural[-1] else natural[:-1], 1):
        line = line.lstrip(BLANKS)
        if not begun:
            if not line:
                alone, comment = alone + bool(comment), []
                continue
            if line[0] in "#!":
                comment.append(line[1:].strip())
                continue
            whole, begun = "", number
        ending = len(line) - len(line.rstrip("\\"))
        if ending % 2:
            whole += line[:-1]
            continue
        lines.append((begun, whole + line, joined_comment(comment)))
        comment, begun = [], 0
    if begun:
        raise Refused(f"{name}: line {begun} goes on after the end of the file, which was cut")
    return lines, alone + bool(comment)


def unescaped(text, name, line):
    """A key or a value without its escapes."""
    def character(found):
        if found[1]:
            return chr(int(found[1], 16))
        if found[2] == "u":
            raise Refused(f"{name}: line {line}: \\u is without four hexadecimal digits")
        return ESCAPES.get(found[2], found[2])

    pattern = r"\\(?:u([0-9A-Fa-f]{4})|(.))"
    return joined_pairs(re.sub(pattern, character, text, flags=re.DOTALL))


def read(data, name, args, found):
    """Takes a file in one language."""
    lang = stated_language("", args.lang, name)
    lines, alone = logical_lines(text_of(data, name), name)
    for number, line, comment in lines:
        key = re.match(r"[^\\=: \t\f]*(?:\\.[^\\=: \t\f]*)*", line, re.DOTALL)[0]
        value = re.match(r"[ \t\f]*[=:]?[ \t\f]*(.*)", line[len(key):], re.DOTALL)[1]
        key = unescaped(key, name, number)
        if found.label(key, lang, [unescaped(value, name, number)], number):
            found.beside(key, NOTES, [comment])
    for _ in range(alone):
        found.leave("comments that stand alone")


def escaped(text, more=""):
    """A text with escapes for what is no printable ASCII, and for more characters."""
    def character(found):
        it = found[0]
        if it in "\\" + more:
            return "\\" + it
        units = it.encode("utf-16-be").hex().upper()
        return ESCAPED.get(it) or re.sub("(....)", r"\\u\1", units)
    return re.sub(rf"[^ -~]|[\\{re.escape(more)}]", character, text)


def write(out, args):
    """A file in one language."""
    def entry_of(key, labels):
        value = escaped(the_text(labels[args.lang]))
        comment = "".join(f"# {line}".rstrip() + "\n" for line in comment_lines(
            note_of(labels))) if note_of(labels) else ""
        value = "\\" + value if value.startswith(" ") else value
        return f"{comment}{escaped(key, '=: #!')}={value}\n"

    return "".join(out.entries(args.lang, entry_of)).encode()
