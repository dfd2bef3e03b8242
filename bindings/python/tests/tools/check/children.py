"""The rules of lexicat-check, and the program in children of one Python."""
import json

import in_children
from silkwaram.tools import check


def verdicts(lang, sources, texts):
    """What the placeholders of each text differ in."""
    return [list(check.differences_at(sources, texts, place, lang)) for place in range(len(texts))]


def written(value):
    """A value as JSON.stringify of JavaScript writes it."""
    return json.dumps(value, ensure_ascii=False, separators=(",", ":"))


def run(*words):
    """The status of lexicat-check, what it prints, and what it writes to standard error."""
    return in_children.ended(check.main, words)
