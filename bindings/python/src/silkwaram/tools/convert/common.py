"""What the formats share: files, languages, ids, and the labels that are read or written."""
import collections
import hashlib
import json
import re

from .._maps import CONTROLS, ID_LIMIT, NOTES, TAG, Misfit, Misfits, check_label, counted
from .._shared import Refused, quoted, read_file
from ._program import PROGRAM

__all__ = ["NOTES", "Misfit", "Refused", "counted", "quoted"]
tell = PROGRAM.tell
# The key of a message in a file, if it can be no id, and a digest is the id in its place.
KEY = "x-key"
# What the texts of a label are, if their number does not say it: PLURAL or ARRAY.
FORMS, PLURAL, ARRAY = "x-forms", "plural", "array"
DEPTH = 100


def decoded(data, name):
    """A text in UTF-8, or in UTF-16 if a byte order mark says so."""
    encoding = "utf-16" if data[:2] in (b"\xff\xfe", b"\xfe\xff") else "utf-8-sig"
    try:
        return data.decode(encoding)
    except UnicodeDecodeError as fault:
        shown = encoding[:6].rstrip("-").upper()
        raise Refused(f"{name}: byte {fault.start} is not {shown}") from None


def joined_pairs(text):
    """A text in which both halves of a surrogate pair are one character."""
    return re.sub("[\ud800-\udbff][\udc00-\udfff]", lambda pair: pair[0].encode(
        "utf-16", "surrogatepass").decode("utf-16"), text)


# ---- Languages

def cased(lang, hyphen="-"):
    """A tag as RFC 5646 (2.1.1) recommends to write it: zh-Hant-TW, or with another hyphen."""
    subtags, written = lang.split("-"), []
    for place, subtag in enumerate(subtags):
        after_singleton = place > 0 and len(subtags[place - 1]) == 1
        if place and not after_singleton and len(subtag) in (2, 4):
            subtag = subtag.upper() if len(subtag) == 2 else subtag.title()
        written.append(subtag)
    return hyphen.join(written)


def stated_language(stated, wanted, name, option="--lang"):
    """The language that a file states, or the one of an option, which has to be the same."""
    if not stated:
        if not wanted:
            raise Refused(f"{name}: states no language: name it by {option}")
        return wanted
    lang = stated.replace("_", "-").lower()
    if not TAG.fullmatch(lang):
        raise Refused(f"{name}: its language is {quoted(stated)}, which is not a language tag")
    if wanted and lang != wanted:
        raise Refused(f"{name}: its language is {quoted(stated)}, not {wanted}")
    return lang


# ---- Labels

def check_id(message):
    """Refuses what is no id of a message."""
    if not 0 < len(message.encode()) <= ID_LIMIT:
        raise Misfit(f"it is not an id, which has 1 to {ID_LIMIT} bytes")
    if CONTROLS.search(message) or message.startswith("@"):
        raise Misfit("it is not an id, which has no control character and no @ first")


def can_be_label(texts):
    """Whether texts can be a label, or each of them one."""
    try:
        check_label(texts)
    except (Misfit, UnicodeEncodeError):
        return False
    return True


# The formats whose own readers take the last of several texts of a key.
LAST_COUNTS = ("properties", "i18next", "json", "arb")


class Found:
    """The labels of one file, by message and language. A key that is there twice with different
    texts is named. The last of them counts if the readers of the format say so; else none does."""

    def __init__(self, name, args, misfits):
        self.name, self.misfits = name, misfits
        self.domain = f"{args.domain}/" if args.domain else ""
        # (in tables the first column has ids, not keys of a program)
        self.has_ids = args.format == "csv"
        self.last_counts = args.format in LAST_COUNTS
        self.labels, self.twice, self.left_out = {}, set(), collections.Counter()

    def misfit(self, key, words, line=None):
        """Names what is left out."""
        self.misfits.count += 1
        place = f"line {line}: " if line else ""
        tell(f"{self.name}: {place}{quoted(key)}: {words}")

    def leave(self, what):
        """Counts what has no place in language maps."""
        self.left_out[what] += 1

    def id_of(self, key):
        """The id of a key: the key itself, or a digest of it if that can be no id."""
        try:
            check_id(self.domain + key)
        except Misfit:
            if self.has_ids:
                raise
            return f"{self.domain}sha256-{hashlib.sha256(key.encode()).hexdigest()}"
        return self.domain + key

    def label(self, key, lang, texts, line=None):
        """Takes a label, or names it; returns whether it was taken."""
        try:
            texts = tuple(texts)
            message = self.id_of(key)
            for text in (key,) + texts:
                check_label((text,))
            check_label(texts)
        except UnicodeEncodeError:
            self.misfit(key, "a text is not Unicode: it has half of a surrogate pair", line)
            return False
        except Misfit as why:
            self.misfit(key, why, line)
            return False
        labels = self.labels.setdefault(message, {})
        is_other = labels.get(lang, texts) != texts
        if is_other and self.last_counts:
            self.misfit(key, "is there twice with different texts, so the last of them counts", line)
        elif is_other or key in self.twice:
            self.twice.add(key)
            self.misfit(key, "is there twice with different texts, so none of them counts", line)
            self.labels.pop(message, None)
            return False
        labels[lang] = texts
        if message != self.domain + key:
            labels[KEY] = (key,)
        return True

    def beside(self, key, lang, texts):
        """Takes what is beside the label of a message, as a note."""
        texts = tuple(text for text in texts if text)
        labels = self.labels.get(self.id_of(key))
        if not texts or labels is None:
            return
        try:
            check_label(texts)
            labels[lang] = texts
        except (Misfit, UnicodeEncodeError):
            self.leave(f"{lang} that is not a label")


class Maps:
    """The labels of all files."""

    def __init__(self):
        self.labels, self.left_out = {}, collections.Counter()

    def add(self, found):
        """Takes the labels of a file. What an earlier file has otherwise is named."""
        self.left_out += found.left_out
        for message, labels in found.labels.items():
            known = self.labels.setdefault(message, {})
            for lang, texts in labels.items():
                if known.setdefault(lang, texts) == texts:
                    continue
                if lang.startswith("x-"):
                    self.left_out[f"{lang} that an earlier file has otherwise"] += 1
                else:
                    found.misfit(message, f"has another text in {lang} in an earlier file")


def tell_left_out(counter):
    """One line of what was counted."""
    if counter:
        parts = [f"{what} ({count})" for what, count in sorted(counter.items())]
        tell("left out: " + ", ".join(parts))


def texts_of_value(value):
    """The texts of a label of language maps; none if it is no label."""
    texts = value if isinstance(value, list) else [value]
    texts = tuple(text for text in texts if text is not None)
    if not all(isinstance(text, str) for text in texts):
        raise ValueError
    return texts


def read_maps(name):
    """Reads language maps: the texts by message and language."""
    data, name = read_file(name), name or "standard input"
    try:
        maps = json.loads(decoded(data, name))
    except (ValueError, RecursionError):
        raise Refused(f"{name}: not JSON") from None
    if isinstance(maps, dict) and isinstance(maps.get("kind"), str):
        raise Refused(f"{name}: is a {quoted(maps['kind'])}, not language maps "
                      "as lexicat export prints them")
    if not isinstance(maps, dict):
        raise Refused(f"{name}: not language maps")
    messages = {}
    for message, labels in maps.items():
        if message.startswith("@"):
            continue
        try:
            check_id(message)
            texts = {lang.lower(): texts_of_value(value) for lang, value in labels.items()}
        except (AttributeError, ValueError, Misfit):
            raise Refused(f"{name}: {quoted(message)} is not a language map") from None
        if len(texts) != len(labels) or not all(map(TAG.fullmatch, labels)):
            raise Refused(f"{name}: {quoted(message)} has a language that is not a tag, "
                          "or is there twice")
        messages[message] = {lang: it for lang, it in texts.items() if it}
    return messages


def note_of(labels):
    """The note of a message, or an empty text."""
    return "\n".join(labels.get(NOTES, ()))


def is_plural(labels):
    """Whether the label of a message with one text is the only form of a plural."""
    return labels.get(FORMS) == (PLURAL,) or labels.get(FORMS) != (ARRAY,) and any(
        len(texts) > 1 for lang, texts in labels.items() if not lang.startswith("x-"))


def the_text(texts):
    """The text of a label for a format that has no several ones."""
    if len(texts) != 1:
        raise Misfit(f"it has {counted(texts)}, and this format has one")
    return texts[0]


class Written:
    """The messages that go out: their keys, which are the ids without the domain, and what is left
    out. `keeps` are the languages beside a label for which the format has a place."""

    def __init__(self, messages, args, keeps):
        self.messages, self.args, self.keeps = messages, args, keeps
        self.misfits, self.left_out = Misfits(tell), collections.Counter()

    def entries(self, langs, entry_of):
        """What a function makes of the key and the labels of each message that has a label in a
        language, or in one of several ones."""
        langs = [langs] if isinstance(langs, str) else langs
        domain = f"{self.args.domain}/" if self.args.domain else ""
        for message, labels in sorted(self.messages.items()):
            if not message.startswith(domain) or message == domain or not any(
                    lang in labels for lang in langs):
                continue
            key = message[len(domain):] if self.args.format == "csv" else labels.get(
                KEY, [message[len(domain):]])[0]
            try:
                yield entry_of(key, labels)
            except Misfit as why:
                self.misfits.tell(message, why)
                continue
            if NOTES in labels and NOTES not in self.keeps:
                self.left_out["notes, for which this format has no place"] += 1

# ---- JSON

class Pairs(list):
    """The members of an object of JSON, with those that are there twice."""

    def last(self, above, found):
        """The members without those of which another one has the name behind them, which are named
        if they differ."""
        members = {}
        for key, value in self:
            if members.pop(key, value) != value:
                found.misfit(above + key, "is there twice with different values, so the last of them"
                                          " counts")
            members[key] = value
        return Pairs(members.items())


def plain(value):
    """A value of JSON without pairs; raises Misfit if a name is twice in an object."""
    if isinstance(value, Pairs):
        members = {key: plain(it) for key, it in value}
        if len(members) != len(value):
            raise Misfit("one of its attributes is there twice")
        return members
    return [plain(it) for it in value] if isinstance(value, list) else value


def read_json(data, name):
    """A value of JSON, whose objects are `Pairs`."""
    def refused(word):
        raise ValueError(word)

    def number(word):
        return float(word) if abs(float(word)) < 1e308 else refused(word)

    text = decoded(data, name)
    try:
        return json.loads(text, object_pairs_hook=Pairs, parse_constant=refused,
                          parse_float=number)
    except json.JSONDecodeError as fault:
        raise Refused(f"{name}: line {fault.lineno} is not JSON: {fault.msg}") from None
    except ValueError:
        raise Refused(f"{name}: not JSON") from None


def read_object(data, name):
    """The members of a JSON object."""
    value = read_json(data, name)
    if not isinstance(value, Pairs):
        raise Refused(f"{name}: not an object of JSON")
    return value


def json_file(value):
    """A JSON file."""
    return (json.dumps(value, ensure_ascii=False, indent=2) + "\n").encode()


def joined_comment(lines):
    """The lines of comments as a note, without empty ones around them."""
    return "\n".join(line.strip() for line in lines).strip("\n")


def comment_lines(text):
    """The lines of a comment, without blanks around them."""
    return [line.strip() for line in re.split(r"\r\n|[\r\n]", text.strip())]
