"""WebOb's `webob.acceptparse`."""
from run import Malformed
from webob.acceptparse import AcceptLanguageValidHeader, create_accept_language_header


def header(text):
    made = create_accept_language_header(text)
    if not isinstance(made, AcceptLanguageValidHeader):
        raise Malformed()
    return made


def field(text):
    return [[one.lower(), round(weight * 1000)] for one, weight in header(text).parsed]


def basic_filtering(text, tags):
    return [tag for tag, _ in header(text).basic_filtering(tags)]


def lookup(text, tags, default):
    return header(text).lookup(tags, default_tag=default, default=lambda: None)
