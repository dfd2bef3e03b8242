"""`lexicat-po`: writes the labels of a site as a PO file for translators, and reads back what they
did; makes language maps of other PO files. lexicat-po(1) has the details.
"""
import argparse
import datetime
import gettext
import hashlib
import json
import pathlib
import re
import sys
from typing import Callable, Dict, List, NamedTuple, Optional, Set, Tuple
from urllib.parse import quote, quote_plus, unquote, unquote_plus

from . import _pofile
from ._arguments import Arguments, domain_name, language
from ._maps import (
    CONTROLS, FLAGS, ID_LIMIT, NOTES, TAG, Misfit, Misfits, check_label, counted, language_maps,
    read_site, site_in,
)
from ._shared import Program, Refused, count_of, print_text, quoted, read_file

HELP = """\
Usage: lexicat-po out --lang LANG --source LANG [SITE] > FILE.po
       lexicat-po in --lang LANG --source LANG SITE FILE.po
       lexicat-po confirmed --lang LANG --source LANG SITE FILE.po
       lexicat-po maps --source LANG FILE.po..

  out          writes a PO file: an entry for each message with a label in the
               source language, marked fuzzy if that label is later than the
               translation
  in           prints the old and the new language maps, for lexicat update, of
               the entries of FILE.po that are translated and not fuzzy
  confirmed    prints language maps, for lexicat import, of the labels that are
               older than their source and are in FILE.po unchanged, not fuzzy
  maps         prints language maps, for lexicat import, of PO files that did
               not come from a site, each in one language

An entry's msgctxt is the id of its message. Messages that cannot be used are
listed on standard error; the rest is done, and the status is 7.

  --lang LANG            the language of the translations; for maps the default
                         is what a file states, or its name
  --source LANG          the language that is translated
  --sent FILE            for in: the PO file as it was sent. Entries that are
                         the same in it change nothing. Without it the digests
                         in FILE.po say what was sent, or else the site does
  --like FILE            for out and in: a PO file of the language. Its plural
                         rule is used, and by out the rest of its header too
  --plural-forms FORMS   the plural rule, such as 'nplurals=2; plural=n != 1;'
  --domain NAME          for maps: what the ids begin with, before a slash
  -h, --help             print this
  --version              print the version
"""
PROGRAM = Program("lexicat-po", HELP)
# (PO has escapes for some others too, which programs read in different ways)
NO_PO = re.compile(r"[\x00-\x08\x0b\x0c\x0e-\x1f\x7f]")
IN_REFERENCES = "!\"#$&'()*+,/;<=>?@[\\]^`{|}"

# The plural rules. Those of the first part are what msginit of gettext 0.21 writes, those of the
# second are those of CLDR for whole numbers: compared with Babel 2.10 for 0 to 1,999.
SLAVIC = ("nplurals=3; plural=(n%10==1 && n%100!=11 ? 0 : "
          "n%10>=2 && n%10<=4 && (n%100<10 || n%100>=20) ? 1 : 2);")
RULES = {
    "ja ko vi": "nplurals=1; plural=0;",
    "bg da de el en eo es et fi he it nb nl nn no pt sv tr": "nplurals=2; plural=(n != 1);",
    "fr pt-br": "nplurals=2; plural=(n > 1);",
    "be hr ru sr uk": SLAVIC,
    "cs sk": "nplurals=3; plural=(n==1) ? 0 : (n>=2 && n<=4) ? 1 : 2;",
    "ga": "nplurals=3; plural=n==1 ? 0 : n==2 ? 1 : 2;",
    "lt": "nplurals=3; plural=(n%10==1 && n%100!=11 ? 0 : "
          "n%10>=2 && (n%100<10 || n%100>=20) ? 1 : 2);",
    "lv": "nplurals=3; plural=(n%10==1 && n%100!=11 ? 0 : n != 0 ? 1 : 2);",
    "pl": "nplurals=3; plural=(n==1 ? 0 : "
          "n%10>=2 && n%10<=4 && (n%100<10 || n%100>=20) ? 1 : 2);",
    "ro": "nplurals=3; plural=n==1 ? 0 : (n==0 || (n%100 > 0 && n%100 < 20)) ? 1 : 2;",
    "sl": "nplurals=4; plural=(n%100==1 ? 0 : n%100==2 ? 1 : n%100==3 || n%100==4 ? 2 : 3);",

    "id ms th zh": "nplurals=1; plural=0;",
    "af ca eu gl hu ka kk mn sq ta te ur uz": "nplurals=2; plural=(n != 1);",
    "bn fa hi hy": "nplurals=2; plural=(n > 1);",
    "bs": SLAVIC,
    "ar": "nplurals=6; plural=n==0 ? 0 : n==1 ? 1 : n==2 ? 2 : "
          "n%100>=3 && n%100<=10 ? 3 : n%100>=11 ? 4 : 5;",
}


class Entry(NamedTuple):
    """An entry of a PO file: its source texts, its translations, what is beside them, and the
    digests that it went out with, if any."""
    source: Tuple[str, ...]
    texts: Tuple[str, ...]
    fuzzy: bool
    flags: Tuple[str, ...]
    comment: str
    note: str
    sent: Optional[Tuple[str, str]] = None


class Rule(NamedTuple):
    """A plural rule: how many forms, which of them a number takes, and as PO files write it."""
    forms: int
    form_of: Callable[[int], int]
    text: str

    def is_like(self, other):
        """Whether both choose the same form of each number, as far as can be seen."""
        return self.forms == other.forms and all(
            self.form_of(number) == other.form_of(number) for number in range(1001))


def rule_of(text):
    """The plural rule that a text states; raises ValueError if it states none."""
    found = re.match(r"\s*(nplurals\s*=\s*([1-9])\s*;\s*plural\s*=\s*([^;]+)(?:;|$))", text)
    if not found:
        raise ValueError(text)
    rule = Rule(int(found[2]), gettext.c2py(found[3].strip()), found[1].strip())
    try:
        chosen = {rule.form_of(number) for number in range(1001)}
    except ZeroDivisionError:
        raise ValueError(text) from None
    if not chosen <= set(range(rule.forms)):
        raise ValueError(text)
    return rule


def usual_rule(lang):
    """The rule of the table for a language or for what its tag begins with, if there is one."""
    rules = {name: text for names, text in RULES.items() for name in names.split()}
    while lang not in rules and "-" in lang:
        lang = lang.rpartition("-")[0]
    return rule_of(rules[lang]) if lang in rules else None


def texts_in(labels, lang):
    """The texts of a label; none if there is no label."""
    return labels[lang].texts if lang in labels else ()


# ---- Languages

# What the modifiers of locales are in tags, if they are not the same: a script, or a variant.
SCRIPTS = {"latin": "latn", "cyrillic": "cyrl", "iqtelif": "latn", "latn": "latn", "cyrl": "cyrl"}
VARIANTS = {"euro": "", "ijekavian": "ijekavsk"}


def locale_of(lang):
    """A language tag as PO files write it: pt_BR, sr@latin, zh_Hant_TW."""
    found = re.fullmatch(r"([a-z]{2,3})(-[a-z]{4})?(-(?:[a-z]{2}|\d{3}))?", lang)
    if not found:
        return lang
    name, script, region = found[1], (found[2] or "").title(), (found[3] or "").upper()
    modifier = {"-Latn": "@latin", "-Cyrl": "@cyrillic"}.get(script)
    written = name + region + modifier if modifier else name + script + region
    return written.replace("-", "_")


def tag_of(locale):
    """The language tag of a locale: sr-latn-rs of sr_RS@latin, de-de of de_DE.UTF-8."""
    name, _, modifier = locale.strip().lower().partition("@")
    subtags = name.partition(".")[0].replace("_", "-").split("-")
    if modifier in SCRIPTS:
        subtags.insert(1, SCRIPTS[modifier])
    else:
        subtags.append(VARIANTS.get(modifier, modifier))
    return "-".join(filter(None, subtags))


def comments_of(lang):
    """The language in which the comments of a language's translators are kept."""
    return f"{NOTES}-{lang.lstrip('@')}"


# ---- What is beside a text: comments and flags

# The placeholders that gettext compares. A text is of a format if it has them and its marks in no
# other way; marks that are doubled are none. A percent sign after a digit or before a blank is that
# of a percentage. (What repeats is bounded, so that no text takes long.)
WIDTH = r"(?:\d{1,3}|\*)?(?:\.(?:\d{1,3}|\*)?)?"
OF_C = rf"(?<!\d)%(?:\d{{1,2}}\$)?[-+#0']{{0,5}}{WIDTH}(?:hh?|ll?|[Lqjzt])?"
FORMATS = {
    "c-format": ("%", OF_C + "[diouxXeEfFgGaAcCsSp]"),
    "objc-format": ("%", OF_C + "[@diouxXeEfFgGaAcCsSp]"),
    "python-format": ("%", rf"(?<!\d)%(?:\([^()%]+\))?[-+#0]{{0,5}}{WIDTH}[hlL]?"
                           "[diouxXeEfFgGacrs]"),
    "ruby-format": ("%", rf"%\{{\w+\}}|%<\w+>[-+#0]{{0,5}}{WIDTH}[diouxXeEfgGaAcps]"),
    "python-brace-format": ("{}", r"(?<![%$#])\{(?:[A-Za-z_]\w*|\d+)(?:\.[A-Za-z_]\w*|\[\w+\])*"
                                  r"(?::[-+#<>=^0-9.]*[A-Za-z%]?)?\}"),
}


def is_of_format(texts, marks, placeholder):
    """Whether texts have placeholders of a format."""
    doubled = "|".join(re.escape(mark * 2) for mark in marks)
    pattern = re.compile(f"{doubled}|({placeholder})", re.ASCII)
    return (any(found[1] for text in texts for found in pattern.finditer(text))
            and not any(mark in pattern.sub("", text) for text in texts for mark in marks))


def formats_of(texts):
    """The flags of the formats of texts, one for each mark."""
    found = {}
    for name, (marks, placeholder) in FORMATS.items():
        if marks not in found and is_of_format(texts, marks, placeholder):
            found[marks] = name
    return tuple(found.values())


def is_flag(text):
    """Whether a text is a flag that is kept. (Fuzzy is the state of a translation.)"""
    return (text not in ("", "fuzzy") and text == text.strip() and text.isprintable()
            and not re.search(r",|\\$", text))


def named_flags(entry):
    """The flags of an entry, without the formats that `flags_of` gives by its source."""
    formats = formats_of(entry.source)
    named = [flag for flag in entry.flags if flag.endswith("-format")]
    dropped = formats if set(named) == set(formats) else ()
    return tuple(flag for flag in entry.flags if flag not in dropped)


def flags_of(labels, source):
    """The flags of a message: those it has, and if none names a format those of its source."""
    flags = texts_in(labels, FLAGS)
    if any(flag.endswith("-format") for flag in flags):
        return flags
    return flags + formats_of(source)


def plain_lines(text):
    """A text as comments have it: without blanks around its lines."""
    return "\n".join(line.strip() for line in text.strip().splitlines())


def comment_in(labels, lang):
    """The label of a language as a comment."""
    return plain_lines("\n".join(texts_in(labels, lang)))


def written(comment):
    """A comment as gettext reads it, which joins a line that ends with a backslash to the next."""
    return re.sub(r"\\$", r"\\ ", comment, flags=re.MULTILINE)


# ---- From a site to a PO file

def date_of(time):
    """A time as milliseconds since 1970, as PO files write it."""
    start = datetime.datetime(1970, 1, 1)
    try:
        return (start + datetime.timedelta(milliseconds=time)).strftime("%Y-%m-%d %H:%M+0000")
    except OverflowError:
        return "1970-01-01 00:00+0000"


def header_of(site, messages, args):
    """The fields of the header. The date is that of the last edit of the language."""
    times = [labels[args.lang].time for labels in messages.values() if args.lang in labels]
    header = {
        "Project-Id-Version": site,
        "Last-Translator": "",
        "Language-Team": "",
        **args.header,
        "PO-Revision-Date": date_of(max(times, default=0)),
        "Language": locale_of(args.lang),
        "MIME-Version": "1.0",
        "Content-Type": "text/plain; charset=UTF-8",
        "Content-Transfer-Encoding": "8bit",
        "X-Source-Language": locale_of(args.source),
    }
    if args.rule:
        header["Plural-Forms"] = args.rule.text
    return header


def check_texts(texts, lang):
    """Refuses what a PO file cannot carry."""
    for text in texts:
        found = NO_PO.search(text)
        if found:
            raise Misfit(f"a text of it in {lang} has the character U+{ord(found[0]):04X}, "
                         "which PO files do not carry")


def check_source(texts, lang):
    """Refuses a source that can be no msgid and msgid_plural."""
    check_texts(texts, lang)
    if "" in texts:
        raise Misfit(f"its label in {lang} has an empty text, which cannot be a msgid")
    if len(texts) > 2:
        raise Misfit(f"its label in {lang} has {counted(texts)}, "
                     "and PO files have a msgid and a msgid_plural")


def check_beside(labels, lang):
    """Refuses comments and flags that a PO file cannot carry."""
    for beside in (NOTES, comments_of(lang)):
        check_texts(texts_in(labels, beside), beside)
    if not all(map(is_flag, texts_in(labels, FLAGS))):
        raise Misfit(f"its label in {FLAGS} has a text that is not a flag")


def check_line_feeds(texts, source):
    """Refuses what msgfmt --check refuses: a text and its msgid begin and end alike."""
    for text in source[1:] + texts:
        if text and (text[0] == "\n", text[-1] == "\n") != (
                source[0][0] == "\n", source[0][-1] == "\n"):
            raise Misfit("its texts do not all begin, or do not all end, with a line feed")


def translated(texts, source, rule, lang):
    """An entry with its translation; without texts it is empty."""
    check_texts(texts, lang)
    check_line_feeds(texts, source)
    entry = _pofile.Entry()
    if len(source) == 1:
        if len(texts) > 1:
            raise Misfit(f"its label in {lang} has {counted(texts)}, and its source 1")
        entry.text = texts[0] if texts else ""
        return entry
    if rule is None:
        raise Misfit(f"no plural rule of {lang} is known: name one by --plural-forms or --like")
    if texts and len(texts) != rule.forms:
        raise Misfit(f"its label in {lang} has {counted(texts)}, "
                     f"and the plural rule {rule.forms} forms")
    entry.plural, entry.forms = source[1], dict(enumerate(texts or [""] * rule.forms))
    return entry


def reference_of(message):
    """An id as a reference, quoted twice: programs for XLIFF unquote it, and look for a colon."""
    return quote_plus(quote(message, safe=IN_REFERENCES), safe="")


def digest(texts):
    """What tells texts from others, in few letters. (No text and an empty one are alike in PO.)"""
    whole = json.dumps(list(texts) if any(texts) else [], ensure_ascii=False)
    return hashlib.sha256(whole.encode("utf-8", "surrogatepass")).hexdigest()[:16]


def digests(texts, comment):
    """What an entry that goes out says of its translation and of its translators' comment."""
    return digest(texts), digest(comment.split())


def entry_of(message, labels, args):
    """The entry of a message."""
    source, label = labels[args.source], labels.get(args.lang)
    check_source(source.texts, args.source)
    check_beside(labels, args.lang)
    comment = comment_in(labels, comments_of(args.lang))
    sent = "sent: " + " ".join(digests(texts_in(labels, args.lang), comment))
    is_older = label is not None and label.time < source.time and any(label.texts)
    entry = translated(texts_in(labels, args.lang), source.texts, args.rule, args.lang)
    entry.context, entry.id = message, source.texts[0]
    entry.places = [(reference_of(message), "")]
    entry.note = "\n".join(filter(None, (written(comment_in(labels, NOTES)), sent)))
    entry.comment = written(comment)
    entry.flags = ["fuzzy"] * is_older + list(flags_of(labels, source.texts))
    return entry


def file_of(site, messages, args, misfits):
    """The PO file of a site's messages."""
    args.rule = args.rule or usual_rule(args.lang)
    po = _pofile.File(args.comment, header_of(site, messages, args))
    for message, labels in sorted(messages.items()):
        if args.source not in labels:
            continue
        try:
            po.entries.append(entry_of(message, labels, args))
        except Misfit as why:
            misfits.tell(message, why)
    return f"{po.written()}\n"


def write_out(args):
    """Prints the PO file of a site."""
    misfits = Misfits(args.tell)
    print_text(file_of(*read_site(args.site), args, misfits).encode())
    return misfits.status()


# ---- Reading a PO file

def parsed(name):
    """A PO file."""
    return _pofile.parsed(read_file(name), name)


def check_language(header, name, lang, subtags=None):
    """Refuses the PO file of another language; as many subtags are compared, or all."""
    stated = header.get("Language", "")
    if stated and lang != "@none" and (
            tag_of(stated).split("-")[:subtags] != lang.split("-")[:subtags]):
        raise Refused(f"{name}: its Language is {quoted(stated)}, not {quoted(locale_of(lang))}")


def rule_in(header, name):
    """The plural rule of a header, if it has one."""
    text = header.get("Plural-Forms")
    try:
        return rule_of(text) if text else None
    except ValueError:
        raise Refused(f"{name}: its Plural-Forms are not a plural rule") from None


# The digests of an entry, on a line of its note.
SENT = re.compile(r"\n?^sent: ([0-9a-f]{16}) ([0-9a-f]{16})$", re.MULTILINE)


def entry_in(entry):
    """What an entry has."""
    source, texts = (entry.id,), (entry.text,)
    if entry.forms:
        source = (entry.id, entry.plural)
        texts = tuple(text for _, text in sorted(entry.forms.items()))
    note = plain_lines(entry.note)
    # (the last ones, since a note may read like some)
    sent = SENT.findall(note)[-1:]
    return Entry(source, texts, "fuzzy" in entry.flags,
                 tuple(dict.fromkeys(filter(is_flag, entry.flags))),
                 plain_lines(entry.comment), plain_lines(SENT.sub("", note)), *sent)


def message_of(entry, messages):
    """The id of an entry: its msgctxt, or else its reference, which alone goes through XLIFF."""
    if entry.context in messages or len(entry.places) != 1:
        return entry.context
    # (0.3.0 quoted references once)
    once = unquote_plus(":".join(part for part in entry.places[0] if part))
    twice = unquote(once)
    known = [message for message in (twice, once) if message in messages]
    return (known + [entry.context or twice])[0]


class Returned(NamedTuple):
    """A PO file of a site: its plural rule, its entries by message, and all its messages."""
    rule: Optional[Rule]
    entries: Dict[str, Entry]
    messages: Set[str]


def returned(po, name, args, messages, misfits):
    """What came back of a site with these messages."""
    check_language(po.fields, name, args.lang)
    entries, found, repeated = {}, set(), set()
    for entry in po:
        message = message_of(entry, messages)
        if not message:
            if not entry.is_obsolete and any(entry_in(entry).texts):
                misfits.tell(entry.id, f"has no msgctxt in {name}")
            continue
        found.add(message)
        if entry.is_obsolete:
            continue
        if message in entries:
            repeated.add(message)
        entries[message] = entry_in(entry)
    for message in sorted(repeated):
        misfits.tell(message, f"is there twice in {name}")
        del entries[message]
    return Returned(rule_in(po.fields, name), entries, found)


def read_po(name, args, messages, misfits):
    """Reads the PO file of a site with these messages."""
    return returned(parsed(name), name, args, messages, misfits)


# ---- From a PO file to a site

class Forms:
    """The plural forms of the entries of a file: the rule, or why there is none for it."""

    def __init__(self, rule, stated, lang):
        self.rule = rule or stated
        self.fault = None
        if self.rule is None:
            self.fault = f"no plural rule of {lang} is known: name one by --plural-forms or --like"
        elif stated and not self.rule.is_like(stated):
            self.fault = ("the file has another plural rule, "
                          f"{stated.text} and not {self.rule.text} "
                          "(--plural-forms or --like names one)")

    def check(self, texts):
        """Refuses texts that are not the forms of the rule."""
        if self.fault:
            raise Misfit(self.fault)
        if len(texts) != self.rule.forms:
            raise Misfit(f"it has {counted(texts)}, and the plural rule {self.rule.forms} forms")


def entry_at(labels, args):
    """What the entry of a message would have that comes from a site."""
    source = texts_in(labels, args.source)
    return Entry(source, texts_in(labels, args.lang), False, flags_of(labels, source),
                 comment_in(labels, comments_of(args.lang)), "")


def differs(entry, old, args):
    """Whether an entry has another translation, and another comment, than when it went out: by the
    file that was sent, else by its digests, else by what the site has."""
    if entry.sent and not args.sent:
        was = entry.sent
    else:
        was = digests(old.texts, old.comment)
    return [now != then for now, then in zip(digests(entry.texts, entry.comment), was)]


def edits_of(entry, old, labels, args):
    """The labels that an entry changes, by their languages."""
    edits = {}
    is_edited, is_commented = differs(entry, old, args)
    was_known = args.sent or entry.sent
    if not entry.fuzzy and is_edited and (any(entry.texts) or was_known and any(old.texts)):
        edits[args.lang] = entry.texts
    if entry.comment and is_commented:
        edits[comments_of(args.lang)] = (entry.comment,)
    known = old.flags + flags_of(labels, texts_in(labels, args.source))
    added = tuple(flag for flag in entry.flags if flag not in known)
    if added:
        edits[FLAGS] = texts_in(labels, FLAGS) + added
    return edits


def check_translation(entry, labels, forms, args):
    """Refuses a translation that is none of what the site has now."""
    if not any(entry.texts):
        raise Misfit("it was emptied, which does not delete it: its label stays "
                     "(lexicat delete removes it)")
    if entry.source != labels[args.source].texts:
        raise Misfit(f"its label in {args.source} has changed since: "
                     f"{quoted(entry.source)} was translated")
    check_source(entry.source, args.source)
    if len(entry.source) == 2:
        forms.check(entry.texts)
    if not all(entry.texts):
        raise Misfit("only some of its plural forms are translated")
    check_line_feeds(entry.texts, entry.source)


def fitting_edits(message, entry, old, labels, forms, args, misfits):
    """The labels that an entry changes, without those that do not fit, which are named."""
    edits = edits_of(entry, old, labels, args)
    if edits and args.source not in labels:
        misfits.tell(message, f"the site has no label of it in {args.source}")
        return {}
    for lang, texts in list(edits.items()):
        try:
            if lang == args.lang:
                check_translation(entry, labels, forms, args)
            check_texts(texts, lang)
            check_label(texts)
        except Misfit as why:
            misfits.tell(message, why)
            del edits[lang]
    return edits


def edits_in(messages, came, sent, args, misfits):
    """The language maps of what a translator changed, as they were and as they are."""
    none = came._replace(rule=None, entries={}, messages=set())
    forms = Forms(args.rule or (sent or none).rule or usual_rule(args.lang), came.rule, args.lang)
    lost = (sent or none).messages - came.messages
    if lost:
        misfits.count += len(lost)
        args.tell(f"{len(lost)} of {len(sent.messages)} entries that were sent did not come back")
        leave_last(came, misfits)
    before, after = {}, {}
    for message, entry in sorted(came.entries.items()):
        labels = messages.get(message, {})
        old = (sent or none).entries.get(message) or entry_at(labels, args)
        after[message] = fitting_edits(message, entry, old, labels, forms, args, misfits)
        was = {args.lang: old.texts, comments_of(args.lang): (old.comment,),
               FLAGS: texts_in(labels, FLAGS)}
        before[message] = {lang: was[lang] for lang in after[message] if any(was[lang])}
        tell_overridden(message, entry, labels, after[message], args)
    return language_maps(before), language_maps(after)


def leave_last(came, misfits):
    """Leaves out the last entry of a file that lacks some: it may lack its last lines too."""
    for message in list(came.entries)[-1:]:
        misfits.tell(message, "is the last entry of a file that lacks entries, so it may be cut")
        del came.entries[message]


def tell_overridden(message, entry, labels, edits, args):
    """Says that an edit takes the place of a text that somebody else wrote meanwhile."""
    now = texts_in(labels, args.lang)
    if args.lang in edits and entry.sent and digest(now) != entry.sent[0]:
        was = ", ".join(map(quoted, now)) or "deleted"
        args.tell(f"{quoted(message)}: became {was} after it was sent, "
                  "and this file overrides that")


def read_in(args):
    """Prints the language maps of what a translator changed, as they were and as they are."""
    _, messages = read_site(args.site)
    misfits = Misfits(args.tell)
    came = read_po(args.file, args, messages, misfits)
    count = len(confirmed_in(came, messages, args))
    sent = None
    if args.sent:
        sent = read_po(args.sent, args, messages, Misfits(lambda _: None))
    before, after = edits_in(messages, came, sent, args, misfits)
    if count:
        args.tell(f"{count_of(count, 'label')} older than the source and confirmed without a "
                  "change: lexicat-po confirmed prints them")
    print_text(before + after)
    return misfits.status()


def is_confirmed(entry, labels, args):
    """Whether an entry says that a label is right which is older than its source."""
    source, label = labels.get(args.source), labels.get(args.lang)
    return (not entry.fuzzy and source is not None and label is not None
            and entry.source == source.texts and entry.texts == label.texts
            and label.time < source.time and any(label.texts))


def confirmed_in(came, messages, args):
    """The labels that are confirmed."""
    return {message: {args.lang: entry.texts} for message, entry in came.entries.items()
            if is_confirmed(entry, messages.get(message, {}), args)}


def read_confirmed(args):
    """Prints the language maps of the labels that a translator confirmed."""
    _, messages = read_site(args.site)
    misfits = Misfits(args.tell)
    came = read_po(args.file, args, messages, misfits)
    print_text(language_maps(confirmed_in(came, messages, args)))
    return misfits.status()


# ---- From the catalogues of gettext to language maps

DIGEST = re.compile(r"sha256-[0-9a-f]{64}")


def id_of(entry, domain):
    """An id for an entry, of which no other one has it: context|text, or a digest of both."""
    context, text = entry.context, entry.id
    own = text if context is None and "|" not in text else f"{context or ''}|{text}"
    begin = f"{domain}/" if domain else ""
    if (context != "" and "|" not in (context or "") and not DIGEST.fullmatch(own)
            and 0 < len((begin + own).encode()) <= ID_LIMIT and not CONTROLS.search(own)
            and not (begin + own).startswith("@")):
        return begin + own
    both = json.dumps([context, text], ensure_ascii=False, separators=(",", ":"))
    return f"{begin}sha256-{hashlib.sha256(both.encode()).hexdigest()}"


def language_of(header, name):
    """The language of a PO file: that of its header, or else its name without what follows."""
    stated = header.get("Language", "")
    stem = pathlib.PurePath(name).name.partition(".")[0]
    if not stated and re.fullmatch(r"[a-z]{2,3}([_@-][A-Za-z0-9]+)*", stem):
        stated = stem
    lang = tag_of(stated)
    if not TAG.fullmatch(lang):
        raise Refused(f"{name}: its Language is {quoted(stated)}: name it by --lang")
    return lang


def add_entry(labels, entry, lang, name, args):
    """Adds what an entry has to the labels of its message, of which the first of a language
    counts."""
    flags = labels.get(FLAGS, ())
    flags = tuple(dict.fromkeys(flags + named_flags(entry)))
    for texts in (entry.source, entry.texts, flags, (entry.note,), (entry.comment,)):
        check_label(texts)
    if "" in entry.source:
        raise Misfit(f"has an empty msgid in {name}")
    if labels.setdefault(args.source, entry.source) != entry.source:
        raise Misfit(f"has another msgid_plural in {name}")
    if flags:
        labels[FLAGS] = flags
    if entry.note:
        labels.setdefault(NOTES, (entry.note,))
    if entry.comment:
        labels.setdefault(comments_of(lang), (entry.comment,))
    if entry.fuzzy or not any(entry.texts):
        return
    if not all(entry.texts):
        raise Misfit(f"only some of its plural forms are translated in {name}")
    if labels.setdefault(lang, entry.texts) != entry.texts:
        raise Misfit(f"has another translation in {name}")


def write_maps(args):
    """Prints the language maps of PO files."""
    messages, misfits = {}, Misfits(args.tell)
    fuzzy = obsolete = 0
    for name in args.files:
        po = parsed(name)
        lang = args.lang or language_of(po.fields, name)
        if lang == args.source:
            raise Refused(f"{name}: its language is that of the source")
        for entry in po:
            if entry.is_obsolete:
                obsolete += 1
                continue
            message = id_of(entry, args.domain)
            fuzzy += entry_in(entry).fuzzy
            try:
                add_entry(messages.setdefault(message, {}), entry_in(entry), lang, name, args)
            except Misfit as why:
                misfits.tell(message, why)
    if fuzzy or obsolete:
        args.tell(f"left out: {fuzzy} fuzzy and {obsolete} obsolete entries")
    print_text(language_maps(messages))
    return misfits.status()


# ---- The command

def plural_rule(word):
    """A plural rule of the arguments."""
    try:
        return rule_of(word)
    except ValueError:
        raise argparse.ArgumentTypeError(f"{word} is not a plural rule") from None


def arguments(words):
    """What the words of the command line say."""
    parser = Arguments(PROGRAM)
    commands = parser.add_subparsers(dest="command", required=True)
    for name in COMMANDS:
        command = commands.add_parser(name, program=PROGRAM)
        command.add_argument("--lang", required=name != "maps", type=language)
        command.add_argument("--source", required=True, type=language)
        if name == "maps":
            command.add_argument("--domain", type=domain_name)
            command.add_argument("files", nargs="+")
            continue
        command.add_argument("--plural-forms", dest="rule", type=plural_rule)
        if name != "confirmed":
            command.add_argument("--like")
        if name == "in":
            command.add_argument("--sent")
        command.add_argument("site", nargs="?" if name == "out" else None)
        if name != "out":
            command.add_argument("file")
    args = parser.parse_args(words)
    if args.lang == args.source:
        parser.error("--lang and --source are the same language")
    return args


def read_like(args):
    """Takes what is wanted of the file that --like names."""
    args.header, args.comment = {}, ""
    if getattr(args, "like", None):
        like = parsed(args.like)
        check_language(like.fields, args.like, args.lang, subtags=1)
        args.header, args.comment = like.fields, like.comment
        args.rule = args.rule or rule_in(like.fields, args.like)


# ---- For the server of the editor

def given(lang, source, tell):
    """What a program says that has a site and a file in memory."""
    args = argparse.Namespace(lang=lang, source=source, sent=None, rule=None, header={}, comment="")
    args.tell = tell
    for it in (lang, source):
        if not TAG.fullmatch(it):
            raise Refused(f"{quoted(it)} is not a language tag")
    args.lang, args.source = lang.lower(), source.lower()
    if args.lang == args.source:
        raise Refused("both languages are the same")
    return args


def po_of(site, lang, source):
    """The PO file of a language of a site's document."""
    said = []
    args = given(lang, source, said.append)
    return file_of(*site_in(site, "the site"), args, Misfits(args.tell)).encode("utf-8")


def edits_of_file(site, data, lang, source):
    """The old and new language maps of what is translated in a PO file, and what is said of it."""
    said = []
    args = given(lang, source, said.append)
    _, messages = site_in(site, "the site")
    misfits = Misfits(args.tell)
    came = returned(_pofile.parsed(data, "the file"), "the file", args, messages, misfits)
    old, new = edits_in(messages, came, None, args, misfits)
    return old, new, said


def run(words):
    """Does what the words say."""
    args = arguments(words)
    args.tell = PROGRAM.tell
    read_like(args)
    return COMMANDS[args.command](args)


COMMANDS = {"out": write_out, "in": read_in, "confirmed": read_confirmed, "maps": write_maps}


def main(words: Optional[List[str]] = None) -> int:
    """Runs the program, and returns its status."""
    return PROGRAM.run(run, words)


if __name__ == "__main__":
    sys.exit(main())
