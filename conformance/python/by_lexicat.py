"""The command `lexicat`, or the one that LEXICAT names. It is asked as by_silkwaram.py asks the
package. A text with a zero byte cannot be an argument, and is not asked."""
import os
import re
import subprocess

from run import Malformed

LEXICAT = os.environ.get("LEXICAT", "lexicat")
REFUSED = re.compile(r"refused (\d+): .*?(?: at (\d+))?$", re.M)


def said(*words):
    """The lines of an answer, or Malformed; None where it cannot be asked."""
    if any("\0" in it for it in words):
        return None
    ran = subprocess.run([LEXICAT, "pick", *words], stdin=subprocess.DEVNULL, capture_output=True,
                         text=True, encoding="utf-8", check=False)
    if ran.returncode in (0, 1):
        return ran.stdout.splitlines()
    found = REFUSED.search(ran.stderr)
    if ran.returncode != 3 or not found:
        raise OSError(f"status {ran.returncode}: {ran.stderr}")
    raise Malformed(int(found[2]) if found[2] else None)


def is_read(*words):
    try:
        return NotImplemented if said(*words) is None else True
    except Malformed:
        return False


def tag(text):
    return NotImplemented if text == "@none" else is_read("--", "*", text) or None


def basic_range(text):
    return is_read("--", f"{text};q=1", "en")


def extended_range(text):
    return is_read("--scheme", "extended", "--", text, "en")


def field(text):
    return NotImplemented if said("--", text, "en") is None else True


def filtered(*words):
    lines = said(*words)
    return NotImplemented if lines is None else [it.split(" ")[0] for it in lines[1:]]


def basic_filtering(text, tags):
    return filtered("--all", "--", text, *tags) if tags else NotImplemented


def extended_filtering(ranges, tags):
    words = "--all", "--scheme", "extended", "--", ", ".join(ranges), *tags
    return filtered(*words) if tags else NotImplemented


def looked_up(text, tags, default, *how):
    words = [*how, *(["--default", default] if default else [])]
    lines = said(*words, "--", text, *tags) if tags else None
    if lines is None:
        return NotImplemented
    return None if lines == ["nothing"] else lines[0].split(" ")[1]


def lookup(text, tags, default):
    return looked_up(text, tags, default)


def extended_lookup(ranges, tags, default):
    return looked_up(", ".join(ranges), tags, default, "--scheme", "extended")
