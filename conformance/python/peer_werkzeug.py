"""Werkzeug's `parse_accept_header` and `LanguageAccept`. A field gives its items by weight."""
from werkzeug.datastructures import LanguageAccept
from werkzeug.http import parse_accept_header

ITEMS_HAVE_NO_ORDER = True


def field(text):
    return [[one.lower(), round(weight * 1000)]
            for one, weight in parse_accept_header(text, LanguageAccept)]


def lookup(text, tags, default):
    return parse_accept_header(text, LanguageAccept).best_match(tags, default)
