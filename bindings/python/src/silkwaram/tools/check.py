"""`lexicat-check`: names the labels of a site whose placeholders, blanks at their ends or lengths
are not as their source or their notes have them. lexicat-check(1) has the details.
"""
import json
import os
import re
import sys
from typing import List, Optional

from ._arguments import Arguments, language
from ._command import run
from ._locating import tell_refusal
from ._maps import FLAGS, NOTES
from ._shared import Fault, Program, Refused, print_text, quoted, read_file

HELP = """\
Usage: lexicat-check --source LANG [--lang LANG] [--only KIND] [SITE]

Reads a site, from the file SITE or from standard input, and prints a line
for each label that does not fit its source:

  placeholders   it lacks {name}, %s, %1$s, <b> or the like, or has others
  blanks         it begins or ends with other spaces or line feeds
  lengths        it has more characters than a line `max N` in x-note allows

The status is 1 if a line is printed, and 0 otherwise.

  --source LANG    the language that is translated
  --lang LANG      check only this language
  --only KIND      look only for placeholders, blanks or lengths
  -h, --help       print this
  --version        print the version
"""
PROGRAM = Program("lexicat-check", HELP)
FOUND = 1
KINDS = ("placeholders", "blanks", "lengths")
BESIDE = re.compile(r"x-(note|flags)(-|$)")
LIMIT = re.compile(r"^[ \t]*max[ \t]+(\d{1,5})[ \t]*\r?$", re.ASCII | re.IGNORECASE | re.MULTILINE)
BLANKS_AT_ENDS = re.compile(r"[ \t\n]*")


# ---- Placeholders: the rules of the editor, page/placeholders.mjs. Whoever changes one changes the
# other, and tests/tools/check/placeholders.t compares the two. (What repeats is bounded, so
# that no text takes long.)

# %d, %-5.1f, %1$s, %*d, %(name)s, %<name>s, %<PRIu64>, %{name}
NUMBER = r"(?:\d{1,3}|\*(?:\d{1,2}\$)?)?"
PRINTF, STRICT_PRINTF = (re.compile(
    r"%(?:(\{[\w.]{1,60}\})|(?:(\([\w.]{1,60}\)|<[a-z_]\w{0,59}>)|(\d{1,2})\$)?"
    rf"(?:{flag}){{0,5}}({NUMBER}(?:\.{NUMBER})?)"
    r"(?:((?:hh?|ll?|[Lqjz]|t(?=[a-z]\b))?)([diouxXeEfFgGcrspm@])|<PRI([diouxX])(\w{1,10})>))",
    re.ASCII) for flag in (r"[+#0']|I(?!\d)|-(?=[-+#0'\d*])", r"[-+#0' ]|I(?!\d)"))
# (the second has % d and %-e too, which in a text of another kind is a percentage and a word)
# (as msgfmt has them: an argument of %i may be written by %d)
LETTERS = {"i": "d", "o": "u", "x": "u", "X": "u", "E": "e", "f": "e", "F": "e", "g": "e", "G": "e",
           "r": "s"}

# {{name}}; {count, plural, ..}; {when, date, short}; {name}, {0}, {name:>5}, {}
BRACE = re.compile(r"[{}]")
BLANKS = r"[ \t\r\n]{0,9}"
NAME = r"[\w$][\w.$]{0,59}"
OTHERS = "number|date|time|ordinal|spellout|duration|list"
DOUBLE = re.compile(
    rf"\{{\{{{BLANKS}(?:- ?)?([\w$][\w.$-]{{0,59}}){BLANKS}(?:,[^{{}}]{{0,200}})?\}}\}}", re.ASCII)
CHOICE = re.compile(
    rf"\{{{BLANKS}({NAME}){BLANKS},{BLANKS}(plural|selectordinal|select){BLANKS},", re.ASCII)
TYPED = re.compile(
    rf"\{{{BLANKS}({NAME}){BLANKS},{BLANKS}({OTHERS}){BLANKS}(?:,[^{{}}]{{0,200}})?\}}", re.ASCII)
SIMPLE = re.compile(
    rf"\{{{BLANKS}((?:{NAME}(?:\[\w{{1,60}}\])?)?){BLANKS}(?:![rsa])?(?::[^{{}}]{{0,60}})?\}}",
    re.ASCII)

# <b>, </b>, <a href="..">, <0>, <br/>
MARKUP = re.compile(
    r"<(/?)([A-Za-z][\w:-]{0,40}|\d{1,2})((?:[ \t\r\n][^<>]{0,300}|/)?)>", re.ASCII)
VOID = {"br", "hr", "img", "wbr"}

# Each plural form of these languages is for many numbers, but a fourth one, which is for 1. In
# others all but the last may be for one number, and leave it out ("one file"); in Latvian the
# third, which is for 0.
OF_MANY, OF_FOUR = set("be bs hr is lt mk ru sh sr uk".split()), {"dsb", "hsb", "sl"}
TAKEN = "\0"


def shown_by(found):
    """By keys, as they are written, what is found as (key, as it is written, and as it is numbered
    if it has neither number nor name). Of several such ones each is shown with its number."""
    is_lone = sum(numbered is not None for _, _, numbered in found) == 1
    return {key: numbered if numbered and not is_lone else written
            for key, written, numbered in found}


class Parts:
    """The placeholders of a text."""

    def __init__(self, text, is_strict=False):
        self.tags = MARKUP.findall(self.take_braces(self.take_prints(text, is_strict)))

    def take_prints(self, text, is_strict):
        """Takes those of printf, and passes on the text without them."""
        self.is_doubled = "%%" in text
        doubled = "%[-+#0' ]{0,5}%" if is_strict else "%%"
        single = re.sub(doubled, lambda it: " " * len(it[0]), text)
        found, order = [], 0

        def take(it):
            nonlocal order
            whole, name, place, width, length, conversion, macro, type_ = it.groups()
            # (a number, and the letters of a word: 100%ige)
            around = single[max(0, it.start() - 1):it.start()] + single[it.end():it.end() + 1]
            if not is_strict and re.fullmatch("[0-9][A-Za-z]", around):
                return it[0]
            letter = LETTERS.get(conversion or macro, conversion or macro)
            size = "" if length == "l" and letter == "e" else length
            kind = f"<PRI{letter}{type_}>" if macro else f"{size}{letter}"
            if whole or conversion == "m":
                found.append((it[0] if whole else "%m", it[0], None))
            elif name:
                found.append((f"%{name}{kind}", it[0], None))
            else:
                # (the number that a star takes is of %d)
                for star in re.finditer(r"\*(?:(\d+)\$)?", width, re.ASCII):
                    order += not star[1]
                    key = f"%{int(star[1] or order)}$d"
                    found.append((key, key, None if star[1] else key))
                order += not place
                number = int(place or order)
                own = f"%{number}$" + (f"<PRI{macro}{type_}>" if macro else length + conversion)
                found.append((f"%{number}${kind}", it[0], None if place else own))
            return TAKEN * len(it[0])

        rest = (STRICT_PRINTF if is_strict else PRINTF).sub(take, single)
        self.prints = shown_by(found)
        self.left = rest.count("%")
        self.is_other = bool(re.search(r"(?<!\d)%[A-Za-z\d]", rest, re.ASCII))
        return rest

    def take_braces(self, text):
        """Takes those in braces, and passes on the text without them."""
        found, stack, parts, at, order = [], [], [], 0, 0
        self.has_choice = self.has_other = is_surplus = False
        for brace in iter(lambda: BRACE.search(text, at), None):
            parts.append(text[at:brace.start()])
            at = brace.start()
            if it := CHOICE.match(text, at):
                found.append((f"{{{it[1]}, {it[2]}}}", f"{{{it[1]}, {it[2]}}}", None))
                self.has_choice = True
                stack.append("choice")
            elif brace[0] == "}":
                is_surplus = is_surplus or not stack
                del stack[-1:]
            elif stack[-1:] == ["choice"]:
                stack.append("branch")
            else:
                if it := DOUBLE.match(text, at):
                    found.append((f"{{{{{it[1]}}}}}", f"{{{{{it[1]}}}}}", None))
                elif it := TYPED.match(text, at):
                    found.append((f"{{{it[1]}, {it[2]}}}", f"{{{it[1]}, {it[2]}}}", None))
                elif not re.search(r"\\[A-Za-z]?\Z", text[max(0, at - 2):at]) and (
                        it := SIMPLE.match(text, at)):
                    key = f"{{{it[1] or order}}}"
                    found.append((key, key if it[1] else "{}", None if it[1] else key))
                    order += not it[1]
                else:
                    stack.append("other")
                    self.has_other = True
            length = len(it[0]) if it else 1
            parts.append(TAKEN * length)
            at += length
        self.braces = shown_by(found)
        self.unpaired = "{" if stack else "}" if is_surplus else ""
        return "".join(parts) + text[at:]


def counted_tags(tags, closed, is_once):
    """The tags of a text, each with how often it is there. What is never closed is none."""
    counts = {}
    for slash, name, more in tags:
        is_self = more.endswith("/")
        if name not in VOID and not is_self and name not in closed:
            continue
        end = "/" if is_self and not slash and name not in VOID else ""
        tag = f"<{slash}{name}{end}>"
        counts[tag] = 1 if is_once else counts.get(tag, 0) + 1
    return counts


def beyond(one, other):
    """What one text has by keys that the other has not."""
    return [shown for key, shown in one.items() if key not in other]


def oftener(one, other):
    """The tags that one text has more often than the other."""
    return [tag for tag, count in one.items() if count > other.get(tag, 0)]


def differences(source, translation):
    """The placeholders that a translation lacks, and those that it has beyond its source."""
    wanted, lacks, beside = Parts(source), [], []
    found = Parts(translation, bool(wanted.prints) and wanted.left == 0)
    # (a source with percent signs of other kinds is no format of printf)
    if not wanted.is_other and (wanted.prints or wanted.left == 0):
        lacks += beyond(wanted.prints, found.prints)
        beside += beyond(found.prints, wanted.prints)
        if (wanted.prints or wanted.is_doubled) and wanted.left == 0 and found.left > 0:
            beside.append("%")
    # (and one of printf, or with other braces too, has single braces for other things)
    is_of_names = wanted.has_choice or not wanted.prints and not wanted.has_other
    names, others = ({key: shown for key, shown in it.braces.items()
                      if is_of_names or key.startswith("{{")} for it in (wanted, found))
    lacks += beyond(names, found.braces)
    beside += beyond(others, wanted.braces)
    if wanted.has_choice and not wanted.unpaired and found.unpaired:
        beside.append(found.unpaired)
    closed = {name for slash, name, _ in wanted.tags + found.tags if slash}
    is_once = wanted.has_choice or found.has_choice
    tags, other_tags = (counted_tags(it.tags, closed, is_once) for it in (wanted, found))
    return lacks + oftener(tags, other_tags), beside + oftener(other_tags, tags)


def may_lack(lang, place, count):
    """Whether the plural form at a place may be for one number."""
    name = lang.partition("-")[0]
    if name in OF_MANY:
        return place == 3
    return place == 2 if name == "lv" else place < count - 1 and name not in OF_FOUR


def source_for(sources, texts, place):
    """The source text that one of several texts is compared with: the last one with the last."""
    return sources[-1] if place == len(texts) - 1 else sources[min(place, len(sources) - 1)]


def differences_at(sources, texts, place, lang):
    """The same of one of the texts of a label, whose source may have plural forms: each may have
    what the last of these has."""
    own = differences(source_for(sources, texts, place), texts[place])
    if len(sources) == 1 or own == ([], []):
        return own
    lacks, beside = differences(sources[-1], texts[place])
    is_short = len(texts) > 1 and may_lack(lang, place, len(texts))
    return [] if is_short else lacks, beside


def is_compared(flags):
    """Whether the flags of a message (x-flags) leave its placeholders to be compared."""
    return not any(re.fullmatch("no-[a-z-]+-format", flag) for flag in flags)


# ---- Findings

def placeholder_findings(sources, texts, place, lang):
    """What is wrong with the placeholders of a text, in words."""
    lacks, beside = differences_at(sources, texts, place, lang)
    if lacks:
        yield f"lacks {' '.join(lacks)}"
    if beside:
        yield f"has {' '.join(beside)}, and the source has not"


def blank_findings(source, text):
    """What is wrong with the blanks and line feeds at the ends of a text, in words."""
    source, text = source.replace("\r\n", "\n"), text.replace("\r\n", "\n")
    for verb, step in ("begins", 1), ("ends", -1):
        own, wanted = (BLANKS_AT_ENDS.match(it[::step])[0][::step] for it in (text, source))
        if own != wanted:
            yield f"{verb} with {quoted(own)}, and the source with {quoted(wanted)}"


def limit_in(labels, lang):
    """The least length that the notes of a message allow in a language, or None."""
    notes = [text for tag in (NOTES, f"{NOTES}-{lang.lstrip('@')}") for text in labels.get(tag, [])]
    return min((int(found[1]) for note in notes for found in LIMIT.finditer(note)), default=None)


def findings(labels, lang, args):
    """What is wrong with the label of a message in a language: of each text, in words."""
    texts, sources = labels[lang], labels.get(args.source, [])
    limit = limit_in(labels, lang)
    for place, text in enumerate(texts):
        which = f"text {place + 1} " if len(texts) > 1 else ""
        if lang != args.source and sources and text:
            if "placeholders" in args.kinds and is_compared(labels.get(FLAGS, [])):
                for words in placeholder_findings(sources, texts, place, lang):
                    yield which + words
            if "blanks" in args.kinds:
                for words in blank_findings(source_for(sources, texts, place), text):
                    yield which + words
        if "lengths" in args.kinds and limit is not None and len(text) > limit:
            yield f"{which}has {len(text)} characters, and its note allows {limit}"


# ---- The command

def read_messages(name):
    """Of each message the texts by language, as lexicat reads a site."""
    ran = run(["export"], read_file(name))
    if ran.status != 0:
        tell_refusal(PROGRAM, ran.errors)
        raise Refused("", ran.status)
    try:
        exported = json.loads(ran.output)
    except ValueError:
        program = os.environ.get("LEXICAT") or "lexicat"
        raise Fault(f"what {program} printed are no labels") from None
    return {message: {lang: [texts] if isinstance(texts, str) else texts
                      for lang, texts in labels.items()}
            for message, labels in exported.items()}


def check(args):
    """Prints what is found, all of it or nothing, unless the write fails."""
    lines, messages = [], read_messages(args.site)
    if messages and not any(args.source in labels for labels in messages.values()):
        raise Refused(f"no label is in {args.source}, so nothing is compared")
    for message, labels in messages.items():
        for lang in labels:
            if args.lang in (None, lang) and not BESIDE.match(lang):
                lines += [f"{quoted(message)} {lang}: {words}\n"
                          for words in findings(labels, lang, args)]
    print_text("".join(lines).encode())
    return FOUND if lines else 0


def arguments(words):
    """What the words of the command line say."""
    parser = Arguments(PROGRAM)
    parser.add_argument("--source", required=True, type=language)
    parser.add_argument("--lang", type=language)
    parser.add_argument("--only", choices=KINDS)
    parser.add_argument("site", nargs="?")
    args = parser.parse_args(words)
    args.kinds = (args.only,) if args.only else KINDS
    return args


def main(words: Optional[List[str]] = None) -> int:
    """Runs the program, and returns its status."""
    return PROGRAM.run(lambda given: check(arguments(given)), words)


if __name__ == "__main__":
    sys.exit(main())
