#!/usr/bin/env python3
"""Compares `silkwaram.django.LocaleMiddleware` with Django's own, in one process.

Of each header it has the language that Django's own functions find for what the header says by
RFC 9110. Where Django's middleware finds another one, the header is of a kind that README.md of the
package names, and each kind is seen. Prefixes of URLs, cookies and redirects are the same as Django's.

usage: beside_django.py
"""
import asyncio
import collections
import itertools
import json
import os
import re
import sys
import tempfile
import types

import fields
from django.conf import global_settings, settings

GENERATED = 3000
ALL = [code for code, _ in global_settings.LANGUAGES]
LANGUAGES = {
    "fifteen": "en fr de es es-mx pt-br zh-hant zh-hans sr-latn nb it ja ko ru ar".split(),
    "few": "en-gb de pt es-ar zh-hans sr".split(),
    "other": "fr zh-hant ru es-ar es-mx de".split(),
    "all": ALL,
}
OURS = "silkwaram.django.LocaleMiddleware"
THEIRS = "django.middleware.locale.LocaleMiddleware"
RANGE = r"[A-Za-z]{1,8}(?:-[A-Za-z0-9]{1,8})*"
WEIGHT = r"0(?:\.[0-9]{0,3})?|1(?:\.0{0,3})?"
ELEMENT = re.compile(rf"[ \t]*({RANGE}|\*)(?:[ \t]*;[ \t]*[Qq]=({WEIGHT}))?[ \t]*")
PAGE = os.path.join(os.path.dirname(os.path.realpath(__file__)), "../../README.md")
# As the page has them.
KINDS = ["Malformed", "Refused", "Any", "Long", "Longer tags"]

settings.configure(
    ALLOWED_HOSTS=["*"],
    INSTALLED_APPS=["silkwaram"],
    LANGUAGE_CODE="en-us",
    LANGUAGES=[(it, it) for it in ALL],
    ROOT_URLCONF="beside_django_urls",
    SECRET_KEY="of a check",
    SILKWARAM_SITE="/there/is/none",
    TEMPLATES=[{"BACKEND": "django.template.backends.django.DjangoTemplates"}],
    USE_I18N=True,
)

import django  # noqa: E402
from django.conf.locale import LANG_INFO  # noqa: E402
from django.conf.urls.i18n import i18n_patterns  # noqa: E402
from django.http import HttpResponse  # noqa: E402
from django.middleware import locale  # noqa: E402
from django.template import engines  # noqa: E402
from django.test import AsyncClient, Client, RequestFactory  # noqa: E402
from django.test.utils import override_settings  # noqa: E402
from django.urls import path  # noqa: E402
from django.utils import translation  # noqa: E402
from django.utils.translation import get_supported_language_variant  # noqa: E402

django.setup()

from silkwaram import django as ours  # noqa: E402
from silkwaram._site_file import SiteFile  # noqa: E402


def view(request):
    return HttpResponse(f"{request.LANGUAGE_CODE} {translation.get_language()}")


def urls(name, *patterns):
    module = types.ModuleType(name)
    module.urlpatterns = patterns
    sys.modules[name] = module
    return name


urls("beside_django_urls", path("", view))


class Field:
    """What a header says, by RFC 9110 and 4647."""

    def __init__(self, text):
        self.text = text or ""
        self.is_malformed = False
        self.items = []
        for piece in self.text.split(",") if self.text else []:
            it = ELEMENT.fullmatch(piece)
            if it is None or len(it[1]) > 255:
                self.is_malformed = True
            else:
                self.items.append((it[1].lower(), float(it[2] or 1)))
        # (a field may have 65,535 bytes, of which the middleware puts three before it)
        if len(self.text) > 65532:
            self.items = []

    def refuses(self, tag):
        """Whether the weight of the longest range that fits, of these the first one, is 0."""
        fitting = [it for it in self.items if it[0] == tag or tag.startswith(it[0] + "-")]
        fitting.sort(key=lambda it: -it[0].count("-"))
        return bool(fitting) and fitting[0][1] == 0

    def ranges(self):
        """The ranges that are wanted, best first."""
        wanted = [it for it in self.items if it[0] != "*" and it[1] > 0]
        return [range_ for range_, _ in sorted(wanted, key=lambda it: -it[1])]

    def kinds(self):
        ranges = [it for it, _ in self.items]
        found = {
            "Malformed": self.is_malformed or re.search(r"^\s|\s$", self.text),
            "Refused": any(weight == 0 for _, weight in self.items),
            "Any": "*" in ranges,
            "Long": len(self.text) > 500,
            "Longer tags": any(has_longer_tag(it) for it in ranges),
        }
        return [kind for kind in KINDS if found[kind]]


def has_longer_tag(range_):
    return any(
        range_.startswith(code + "-") for code, info in LANG_INFO.items() if "fallback" in info
    )


def truncations(range_):
    subtags = range_.split("-")
    return ["-".join(subtags[:count]) for count in range(len(subtags), 0, -1)]


def variant(tag):
    """What Django has for a tag of LANGUAGES or of its table."""
    if tag not in dict(settings.LANGUAGES) and "fallback" not in LANG_INFO.get(tag, {}):
        return None
    try:
        return get_supported_language_variant(tag, strict=True)
    except LookupError:
        return None


def found_by(range_):
    """What a range may find, best first: tags, and the codes that Django has for them."""
    first = range_.split("-")[0]
    codes = [code for code, _ in settings.LANGUAGES]
    found = [(tag, variant(tag)) for tag in truncations(range_)]
    found += [(first, code) for code in codes if code.startswith(first + "-")]
    return [(tag, code) for tag, code in found if code is not None]


def language_of(field):
    """The language of a field, by Django's own fallbacks."""
    for range_ in field.ranges():
        for tag, code in found_by(range_):
            if not field.refuses(tag) and not field.refuses(code):
                return code
    return get_supported_language_variant(settings.LANGUAGE_CODE)


def answer(middleware, text):
    words = {} if text is None else {"HTTP_ACCEPT_LANGUAGE": text}
    response = middleware(RequestFactory().get("/", **words))
    code, active = response.content.decode().split()
    headers = {name.lower(): value for name, value in response.items()}
    if headers["vary"] != "Accept-Language" or {code, headers["content-language"]} != {active}:
        return f"{code} {active} {headers}"
    return code


def faults_of_headers():
    seen = collections.Counter()
    mine, theirs = ours.LocaleMiddleware(view), locale.LocaleMiddleware(view)
    texts = fields.BROWSERS + fields.HOSTILE + fields.generated(GENERATED)
    for name, codes in LANGUAGES.items():
        with override_settings(LANGUAGES=[(it, it) for it in codes], LANGUAGE_CODE=codes[0]):
            for place, text in enumerate(texts):
                field, got, beside = Field(text), answer(mine, text), answer(theirs, text)
                if got != language_of(field):
                    yield f"{name}: {text!r:.200}: {got}, not {language_of(field)}"
                if got == beside:
                    continue
                kinds = field.kinds()
                seen.update(kinds)
                if not kinds or place < len(fields.BROWSERS):
                    yield f"{name}: {text!r:.200}: {got}, and Django has {beside}"
    print(f"beside_django: {len(texts)} headers, {dict(seen)}")
    with open(PAGE, encoding="utf-8") as page:
        named = re.findall(r"^- \*\*(.*?)\*\*:", page.read(), re.M)
    if named != KINDS:
        yield f"the page names {named}"
    for kind in KINDS:
        if not seen[kind]:
            yield f"no header shows the difference of the kind {kind!r}"


def outcome(response):
    wanted = ("Location", "Content-Language", "Vary")
    named = {name: response.get(name) for name in wanted}
    return response.status_code, named, response.content if response.status_code == 200 else b""


def faults_of_urls():
    patterns = {
        "prefixed": i18n_patterns(path("", view), path("news/", view)),
        "default": i18n_patterns(path("news/", view), prefix_default_language=False),
        "none": [path("news/", view)],
    }
    paths = ["/", "/news/", "/news", "/de/news/", "/de/news?a=1", "/en/news/", "/fr/", "/xx/news/"]
    paths += ["/zh-cn/news/", "/zh-hans/news/", "/pt/news/", "/DE/news/", "/free/", "/de"]
    cookies = [None, "de", "zh-tw", "xx", ""]
    headers = [None, "fr", "pt-PT, fr;q=0.5", "zh-TW", "ja"]
    count = 0
    for name, of_name in patterns.items():
        module = urls(f"urls_{name}", *of_name, path("free/", view))
        words = {"ROOT_URLCONF": module, "LANGUAGE_CODE": "en"}
        words["LANGUAGES"] = [(it, it) for it in LANGUAGES["fifteen"]]
        with override_settings(**words):
            for asked in itertools.product(paths, cookies, headers):
                count += 1
                got = [outcome(it) for it in both(*asked)]
                if got[:2] != got[2:] or got[0] != got[1]:
                    yield f"{name}: {asked}: {got}"
    print(f"beside_django: {count} URLs")


def both(asked_path, cookie, header):
    """The answers of this middleware and of Django's, each without and with asyncio."""
    for middleware in (OURS, THEIRS):
        with override_settings(MIDDLEWARE=[middleware]):
            for client in (Client(), AsyncClient()):
                if cookie is not None:
                    client.cookies[settings.LANGUAGE_COOKIE_NAME] = cookie
                if isinstance(client, Client):
                    words = {} if header is None else {"HTTP_ACCEPT_LANGUAGE": header}
                    yield client.get(asked_path, **words)
                else:
                    # (before Django 4.2 words of an AsyncClient are headers as they are)
                    words = {} if header is None else {"ACCEPT-LANGUAGE": header}
                    yield asyncio.run(client.get(asked_path, **words))


# Rows of Django's documentation of i18n_patterns and of how it discovers a language: a path, a
# cookie, a header, and what is answered.
ROWS = [
    ("/de/news/", "fr", "fr", (200, "de")),
    ("/news/", None, "de", (302, "/de/news/")),
    ("/news/?a=1", "fr", "de", (302, "/fr/news/?a=1")),
    ("/none/", None, "de", (404, "de")),
    ("/pt-br/news/", None, None, (200, "pt-br")),
    ("/free/", "de", "fr", (200, "de")),
    ("/free/", "xx", "zh-CN", (200, "zh-hans")),
]


def faults_of_rows():
    module = urls("urls_rows", *i18n_patterns(path("news/", view)), path("free/", view))
    words = {"ROOT_URLCONF": module, "LANGUAGE_CODE": "en"}
    words["LANGUAGES"] = [(it, it) for it in LANGUAGES["fifteen"]]
    with override_settings(**words):
        for asked_path, cookie, header, wanted in ROWS:
            for response in list(both(asked_path, cookie, header))[:2]:
                said = response.get("Location") or response.get("Content-Language")
                if (response.status_code, said) != wanted:
                    yield f"{asked_path} {cookie} {header}: {response.status_code} {said}"


def language(**changed):
    """A function that asks for the language of a header under other settings."""

    def asked(text):
        with override_settings(**changed):
            return answer(ours.LocaleMiddleware(view), text)

    return asked


def faults_of_settings():
    codes = [("en", "English"), ("pt-br", "Brazilian"), ("zh-hans", "Chinese")]
    words = {"LANGUAGES": codes, "LANGUAGE_CODE": "en"}
    narrow = language(**words, SILKWARAM_WIDEN=False)
    without_catalogue = language(LANGUAGES=[*codes, ("xx", "")])
    header = ours.LocaleMiddleware(lambda it: HttpResponse(it.headers["Accept-Language"]))
    request = RequestFactory().get("/", HTTP_ACCEPT_LANGUAGE="pt, zh-CN;q=0.5")
    rows = [
        ("without SILKWARAM_WIDEN", narrow("pt, zh-CN"), "en"),
        ("without SILKWARAM_WIDEN", narrow("pt, zh-Hans-CN"), "zh-hans"),
        ("with it", language(**words, SILKWARAM_WIDEN=True)("pt, zh-CN"), "pt-br"),
        ("by default", language(**words)("zh-CN, pt"), "zh-hans"),
        ("a code that is no tag", language(LANGUAGES=[*codes, ("sr@latin", "")])("pt"), "pt-br"),
        ("a language without a catalogue", without_catalogue("xx, pt"), "pt-br"),
        ("the header in a view", header(request).content, b"pt, zh-CN;q=0.5"),
        ("a text that is no header", language(**words)("\u65e5\u672c, pt"), "pt-br"),
        ("a table of fallbacks", language(**words, SILKWARAM_FALLBACKS="gl=pt-BR")("gl"), "pt-br"),
        ("without it", language(**words)("gl"), "en"),
    ]
    for what, got, wanted in rows:
        if got != wanted:
            yield f"{what}: {got}, not {wanted}"
    try:
        language(SILKWARAM_FALLBACKS="gl=pt, gl=en")("en")
    except ours.Refused as fault:
        if (fault.number, fault.offset) != (31, 7):
            yield f"a table that is none: {fault}"
    else:
        yield "a table that is none is taken"


TEMPLATE = (
    "{% load silkwaram %}{% label 'greeting' %}|{% label 'greeting' place=1 %}|{% label 'none' %}|"
    "{% label 'greeting' place=7 %}|{% label 'title' as title %}{{ title.language }} {{ title }}|"
    "{% label 'none' as none %}{% if none %}?{% endif %}{{ none.language }}"
)
LABELS = [
    ["greeting", "en", 5, "paris", 0, ["Hello & <b>", "two"]],
    ["greeting", "pt-br", 5, "paris", 1, ["Oi"]],
    ["title", "en", 5, "paris", 2, ["Paper"]],
]


def site(cells):
    held = {"cells": cells, "kind": "site", "site": "paris", "version": 2}
    return json.dumps(held, separators=(",", ":")) + "\n"


def rendered(language, request=None):
    with translation.override(language):
        return engines["django"].from_string(TEMPLATE).render({}, request)


def faults_of_labels():
    for is_mapped in False, True:
        with tempfile.TemporaryDirectory() as folder:
            file = os.path.join(folder, "site.json")
            with open(file, "w", encoding="utf-8") as it:
                it.write(site(LABELS))
            with override_settings(SILKWARAM_SITE=file, SILKWARAM_MAPPED=is_mapped):
                yield from faults_of_template(file, ours._site_file(file, is_mapped))
    with override_settings(SILKWARAM_SITE=None):
        try:
            rendered("en")
        except django.core.exceptions.ImproperlyConfigured:
            return
        yield "a template without SILKWARAM_SITE is rendered"


def faults_of_template(file, held):
    english = "Hello &amp; &lt;b&gt;|two|||en Paper|"
    rows = [
        (rendered("en"), english),
        (rendered("pt-br"), "Oi||||en Paper|"),
        (rendered("pt"), "Oi||||en Paper|"),
        (rendered("ja"), english),
        (rendered(None), english),
    ]
    with override_settings(SILKWARAM_WIDEN=False):
        rows.append((rendered("pt"), english))
        with override_settings(SILKWARAM_FALLBACKS="pt=pt-BR"):
            rows.append((rendered("pt"), "Oi||||en Paper|"))
    request = RequestFactory().get("/")
    rows.append((rendered("pt-br", request), "Oi||||en Paper|"))
    with open(file + ".next", "w", encoding="utf-8") as it:
        it.write(site(LABELS[:2]))
    os.replace(file + ".next", file)
    if isinstance(held, SiteFile):
        held._look(acquired(held))
    rows += [
        (rendered("pt-br", request), "Oi||||en Paper|"),
        (rendered("pt-br"), "Oi|||| |"),
    ]
    for got, wanted in rows:
        if got != wanted:
            yield f"a template: {got!r}, not {wanted!r}"
    with translation.override("ja"):
        label = ours.label(request, "title")
    if (label.language, label.texts) != ("en", ["Paper"]):
        yield f"a label for a view: {label}"


def acquired(file):
    file._lock.acquire()
    return file._lock


def main():
    faults = [*faults_of_headers(), *faults_of_urls(), *faults_of_rows()]
    faults += [*faults_of_settings(), *faults_of_labels()]
    for fault in faults[:20]:
        print(f"beside_django: {fault}")
    return 1 if faults else 0


if __name__ == "__main__":
    sys.exit(main())
