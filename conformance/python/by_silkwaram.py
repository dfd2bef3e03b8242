"""Silkwaram's package for Python. It has no calls for the parts of a tag or the items of a field,
but tells whether they are well-formed. A tag is asked as a default, a range as a field. A default
may also be `@none`, which is no tag, and is not asked."""
import os
import sys

sys.path.insert(0, os.path.join(os.path.dirname(os.path.realpath(__file__)),
                                "../../bindings/python/src"))
import silkwaram  # noqa: E402
from run import Malformed  # noqa: E402


def is_refused(*given, **how):
    try:
        silkwaram.pick(*given, **how)
    except silkwaram.Refused:
        return True
    return False


def tag(text):
    if text == "@none":
        return NotImplemented
    is_one = not (is_refused("*", [], default=text) if text else is_refused("*", [""]))
    return is_one or None


def basic_range(text):
    return not is_refused(f"{text};q=1", [])


def extended_range(text):
    return not is_refused(text, [], extended=True)


def checked(call, *given, **how):
    try:
        return call(*given, **how)
    except silkwaram.Refused as fault:
        raise Malformed(fault.offset) from fault


def field(text):
    checked(silkwaram.pick, text, [])
    return True


def basic_filtering(text, tags):
    return [it.tag for it in checked(silkwaram.filter_tags, text, tags)]


def extended_filtering(ranges, tags):
    return [it.tag for it in checked(silkwaram.filter_tags, ", ".join(ranges), tags, extended=True)]


def lookup(text, tags, default):
    return checked(silkwaram.pick, text, tags, default=default)


def extended_lookup(ranges, tags, default):
    return checked(silkwaram.pick, ", ".join(ranges), tags, default=default, extended=True)
