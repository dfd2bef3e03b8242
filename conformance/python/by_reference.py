"""The second program (reference.py), with the choices that Silkwaram makes."""
import os
import sys

sys.path.insert(0, os.path.join(os.path.dirname(os.path.realpath(__file__)), ".."))
import reference  # noqa: E402
from run import Malformed  # noqa: E402


def tag(text):
    return reference.answer("tags", {"tag": text})


def basic_range(text):
    return reference.answer("basic-ranges", {"range": text})


def extended_range(text):
    return reference.answer("extended-ranges", {"range": text})


def field(text):
    given = reference.answer("fields", {"field": text})
    if isinstance(given, dict):
        raise Malformed(given.get("malformed"))
    return given


def basic_filtering(text, tags):
    return reference.answer("basic-filtering", {"field": text, "tags": tags})


def extended_filtering(ranges, tags):
    return reference.answer("extended-filtering", {"ranges": ranges, "tags": tags})


def lookup(text, tags, default):
    return reference.answer("lookup", {"field": text, "tags": tags, "default": default})


def extended_lookup(ranges, tags, default):
    question = {"ranges": ranges, "tags": tags, "default": default}
    return reference.answer("extended-lookup", question)
