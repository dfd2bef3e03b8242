"""The grammar of Fluent 1.0 for what a message has: patterns with placeables, and what is in these.
A pattern is kept as it is written, without the blanks that all of its lines begin with."""
import re

IDENTIFIER = re.compile("[a-zA-Z][a-zA-Z0-9_-]*")
FUNCTION = re.compile("[A-Z][A-Z0-9_-]*")
NUMBER = re.compile(r"-?[0-9]+(?:\.[0-9]+)?")
STRING = re.compile(r'"[^"\\\n]*(?:(?:\\["\\]|\\u[0-9A-Fa-f]{4}|\\U[0-9A-Fa-f]{6})[^"\\\n]*)*"')
DEPTH = 50


class Fault(Exception):
    """Why a text is none of Fluent, and the place."""

    def __init__(self, words, place):
        super().__init__(words)
        self.place = place


class Reader:
    """Reads a text from one place on. Each function leaves the place behind what it has read."""

    def __init__(self, text, place=0):
        self.text, self.place, self.depth = text, place, 0

    def fault(self, words):
        """What is wrong at the place."""
        return Fault(words, self.place)

    def take(self, pattern):
        """Takes what a regular expression matches, or nothing; returns what it was."""
        found = pattern.match(self.text, self.place)
        if found:
            self.place = found.end()
        return found[0] if found else None

    def sign(self, sign):
        """Takes a sign, or nothing."""
        if self.text.startswith(sign, self.place):
            self.place += len(sign)
            return True
        return False

    def expect(self, sign):
        """Takes a sign that has to be there."""
        if not self.sign(sign):
            raise self.fault(f"{sign} is expected")

    def blank(self):
        """Takes blanks and ends of lines."""
        while self.text[self.place:self.place + 1] in (" ", "\n"):
            self.place += 1

    def inline_blank(self):
        """Takes blanks."""
        while self.sign(" "):
            pass

    def identifier(self):
        """Takes a name."""
        name = self.take(IDENTIFIER)
        if name is None:
            raise self.fault("a name is expected")
        return name

    def goes_on(self):
        """Takes the end of a line and the blanks after it if the pattern goes on there."""
        begin, lines = self.place, re.compile(r"(?: *\n)+ *").match(self.text, self.place)
        if not lines:
            return False
        self.place = lines.end()
        after = self.text[self.place:self.place + 1]
        is_indented = self.text[self.place - 1] == " "
        if after == "{" or is_indented and after not in ("", "\n", "[", "*", ".", "}"):
            return True
        self.place = begin
        return False

    def pattern(self):
        """Takes a pattern, and returns it as it is written."""
        begin = self.place
        while self.place < len(self.text):
            sign = self.text[self.place]
            if sign == "{":
                self.placeable()
            elif sign == "}":
                break
            elif sign == "\n":
                if not self.goes_on():
                    break
            else:
                self.place += 1
        written = self.text[begin:self.place]
        if not written.strip(" \n"):
            raise self.fault("a text is expected")
        return written

    def placeable(self):
        """Takes a placeable."""
        self.depth += 1
        if self.depth > DEPTH:
            raise self.fault(f"placeables are nested more than {DEPTH} deep")
        self.expect("{")
        self.blank()
        self.expression()
        self.blank()
        if self.sign("->"):
            self.variants()
            self.blank()
        if not self.sign("}"):
            raise self.fault("a placeable is not closed, or has more than an expression")
        self.depth -= 1

    def expression(self):
        """Takes an inline expression."""
        after = self.text[self.place:self.place + 1]
        if after == "{":
            self.placeable()
        elif self.take(STRING) or self.take(NUMBER):
            pass
        elif self.sign("$"):
            self.identifier()
        elif self.sign("-"):
            self.identifier()
            if self.sign("."):
                self.identifier()
            self.arguments()
        else:
            begin, name = self.place, self.identifier()
            if self.sign("."):
                self.identifier()
            elif self.arguments() and not FUNCTION.fullmatch(name):
                self.place = begin
                raise self.fault("the name of a function has a small letter")

    def arguments(self):
        """Takes arguments in parentheses, or nothing."""
        begin = self.place
        self.blank()
        if not self.sign("("):
            self.place = begin
            return False
        self.blank()
        while not self.sign(")"):
            named = re.compile(r"[a-zA-Z][a-zA-Z0-9_-]*[ \n]*:[ \n]*")
            if self.take(named):
                if not self.take(STRING) and not self.take(NUMBER):
                    raise self.fault("a named argument is neither a text nor a number")
            else:
                self.expression()
            self.blank()
            if not self.sign(","):
                self.expect(")")
                break
            self.blank()
        return True

    def variants(self):
        """Takes the variants of a selection, of which one is the default."""
        defaults = 0
        self.inline_blank()
        if self.text[self.place:self.place + 1] != "\n":
            raise self.fault("a variant begins on a line of its own")
        while True:
            begin = self.place
            self.blank()
            is_default = self.sign("*")
            if not self.sign("["):
                self.place = begin
                break
            if "\n" not in self.text[begin:self.place]:
                raise self.fault("a variant begins on a line of its own")
            self.blank()
            if not self.take(NUMBER):
                self.identifier()
            self.blank()
            self.expect("]")
            self.inline_blank()
            self.pattern()
            defaults += is_default
        if defaults != 1:
            raise self.fault("a selection does not have exactly one default variant")


def dedented(written):
    """A pattern without the blanks that its lines begin with, and without those around it."""
    first, *lines = written.split("\n")
    indents = [len(line) - len(line.lstrip(" ")) for line in lines if line.strip(" ")]
    common = min(indents, default=0)
    lines = [line[common:] if line.strip(" ") else "" for line in lines]
    return "\n".join([first] + lines).strip("\n").rstrip(" \n")


def pattern_of(text):
    """A text as a pattern after the sign =, which reads as that text; raises Fault."""
    if "\r" in text:
        raise Fault("a carriage return does not end a line there", 0)
    lines = text.split("\n")
    indented = "".join("\n" + ("    " + line if line else "") for line in lines)
    inline = " " + lines[0] + "".join(
        "\n" + ("    " + line if line else "") for line in lines[1:])
    why = None
    for written in ([indented, inline] if len(lines) > 1 else [inline]):
        reader = Reader(written + "\n")
        try:
            reader.inline_blank()
            read = reader.pattern()
        except Fault as fault:
            why = why or fault
            continue
        if reader.place == len(written) and dedented(read) == text:
            return written
    raise why or Fault("its blanks, or the first sign of a line, mean something else there", 0)
