"""Reads files of rows, and asks the command their questions.

A row is STATUS|WORDS|INPUT|LINES:
- WORDS are the arguments, quoted as in a shell.
- INPUT is standard input, with ` / ` for the LF between documents. `-` is an input of which each
  read fails where STATUS is 4, and otherwise one that must not be read.
- LINES are what is written, ` / ` between them, each with an LF at its end: to standard output
  where STATUS is 0 or 1, else to standard error; to the other nothing is. `~PART` is a part of it,
  with ` .. ` for any text, `=WORDS` what these words write, and `-` is nothing.
Several WORDS or INPUTs, ` // ` between them, have one answer. With ` > ` between WORDS the latter
read what the former write.

NAME = TEXT names a text, NAME COUNT = TEXT the text so many times, and NAME += TEXT adds to it.
<NAME> is that text, and <HH> the byte of this hexadecimal number. A line with `#` is a comment.

A line of another form, a row without LINES, a name that is unknown, given twice or not used, and a
file that is not UTF-8 or has no row are faults. Of what the command writes all is compared, byte by
byte, with its status.
"""
import os
import re
import shlex
import subprocess

HERE = os.path.dirname(os.path.abspath(__file__))
ROOT = os.path.dirname(os.path.dirname(HERE))
COMMAND = os.path.abspath(os.environ.get("LEXICAT", os.path.join(ROOT, "build/lexicat")))
FOLDER = os.path.join(HERE, "rows")
DEFINITION = re.compile(r"([a-z][a-z0-9-]{2,})(?: ([0-9]+))? (\+?=) (.*)")
NAME = re.compile(rb"<([a-z0-9-]+)>")
BYTE = re.compile(rb"[0-9a-f]{2}")
SECONDS = 600
SHOWN = 300


class Fault(Exception):
    """What is wrong with a line of a file."""


class Texts:
    """The named texts of a file, and which of them are used."""

    def __init__(self):
        self.texts = {}
        self.used = set()

    def define(self, name, count, sign, text):
        """Adds a definition."""
        if (name in self.texts) != (sign == "+="):
            raise Fault(f"{name} is {'unknown' if sign == '+=' else 'given twice'}")
        self.texts[name] = self.texts.get(name, b"") + self.expand(text) * int(count or 1)

    def expand(self, text):
        """The bytes of a text with its names in place."""
        return NAME.sub(self.named, text.encode())

    def named(self, found):
        """What is in place of a name."""
        name = found.group(1)
        if BYTE.fullmatch(name):
            return bytes.fromhex(name.decode())
        if name.decode() not in self.texts:
            raise Fault(f"the name {name.decode()} is unknown")
        self.used.add(name.decode())
        return self.texts[name.decode()]


class Question:
    """A row with one choice of its words and one of its inputs."""

    def __init__(self, place, status, words, text, lines):
        self.place, self.status, self.text, self.lines = place, status, text, lines
        self.words = [split(part) for part in words.split(b" > ")]

    def ends(self, words):
        """The status, the output and the error of the command with these words over the input."""
        text = self.text
        for part in words:
            if text == b"-":
                ran = run_unread(part, self.status == 4)
            else:
                ran = run(part, input=text.replace(b" / ", b"\n"))
            text = ran.stdout
            if ran.returncode != 0:
                break
        return ran.returncode, ran.stdout, ran.stderr

    def fault(self):
        """What differs, or None."""
        status, output, error = self.ends(self.words)
        found, other = (output, error) if self.status < 2 else (error, output)
        if self.lines.startswith(b"~"):
            wanted = self.lines[1:]
            parts = [re.escape(part) for part in wanted.split(b" .. ")]
            is_so = re.search(b".*".join(parts), found, re.DOTALL) is not None
        else:
            wanted = self.wanted()
            is_so = wanted == found
        if is_so and not other and status == self.status:
            return None
        return (f"{self.place}: {shown(repr(self.words))}\n  wanted {self.status} {shown(wanted)}"
                f"\n  found  {status} {shown(output)} {shown(error)}")

    def wanted(self):
        """The bytes that the lines are."""
        if self.lines == b"-":
            return b""
        if self.lines.startswith(b"="):
            return self.ends([split(self.lines[1:])])[1]
        return self.lines.replace(b" / ", b"\n") + b"\n"


def split(words):
    """The words of a line. Bytes that are no text stay as they are."""
    try:
        found = shlex.split(words.decode("utf-8", "surrogateescape"))
    except ValueError as error:
        raise Fault(f"the words are not quoted right: {error}")
    return [word.encode("utf-8", "surrogateescape") for word in found]


def run(words, **streams):
    """The command with these words."""
    return subprocess.run([COMMAND, *words], stdout=subprocess.PIPE, stderr=subprocess.PIPE,
                          timeout=SECONDS, **streams)


def run_unread(words, has_fault):
    """The command over a folder, of which each read fails, or over a file that it leaves unread."""
    source = os.open(ROOT if has_fault else os.path.abspath(__file__), os.O_RDONLY)
    try:
        ran = run(words, stdin=source)
        if not has_fault and os.lseek(source, 0, os.SEEK_CUR) != 0:
            raise Fault(f"{shown(repr(words))}: the input was read")
        return ran
    finally:
        os.close(source)


def shown(text):
    """A text as it is printed, cut where it is long."""
    text = text if isinstance(text, str) else repr(text)[1:]
    return text if len(text) <= SHOWN else text[:SHOWN] + ".."


def questions(place, row, texts):
    """The questions of a row."""
    fields = row.split("|", 3)
    if len(fields) != 4 or not re.fullmatch("[0-5]", fields[0]):
        raise Fault("no row, no definition and no comment")
    status, (words, text, lines) = int(fields[0]), map(texts.expand, fields[1:])
    if not lines:
        raise Fault("a row without LINES")
    for some in words.split(b" // "):
        for one in text.split(b" // "):
            yield Question(place, status, some, one, lines)


def read(path):
    """The questions of a file, how many rows it has, and what is wrong with it."""
    found, rows, faults, texts = [], 0, [], Texts()
    shown_path = os.path.relpath(path, ROOT)
    try:
        with open(path, encoding="utf-8", newline="\n") as file:
            lines = file.read().split("\n")
    except (OSError, ValueError) as error:
        return found, rows, [f"{shown_path}: {error}"]
    for number, line in enumerate(lines, 1):
        place = f"{shown_path}:{number}"
        definition = DEFINITION.fullmatch(line)
        try:
            if definition:
                texts.define(*definition.groups())
            elif line and not line.startswith("#"):
                found += questions(place, line, texts)
                rows += 1
        except Fault as fault:
            faults.append(f"{place}: {fault}")
    unused = sorted(set(texts.texts) - texts.used)
    faults += [f"{shown_path}: the name {name} is not used" for name in unused]
    if rows == 0:
        faults.append(f"{shown_path}: no row")
    return found, rows, faults


def asked(question):
    """What differs in the answer to a question, or that there is none."""
    try:
        return question.fault()
    except (OSError, ValueError, Fault, subprocess.TimeoutExpired) as error:
        return f"{question.place}: {shown(str(error))}"
