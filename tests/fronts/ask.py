#!/usr/bin/env python3
"""Asks a front end what asked.py has in a folder.

usage: ask.py wsgi | asgi | django FOLDER     the middleware of the package for Python
       ask.py http ADDRESS FOLDER             a server, for /language, /label and /few
       ask.py program PROGRAM FOLDER          a program: PROGRAM SITE ID HEADER DEFAULT FALLBACKS

The answers go to standard output, as asked.py compares them.
"""
import asyncio
import http.client
import json
import os
import struct
import subprocess
import sys
from wsgiref.util import setup_testing_defaults


def rules_of(asked):
    return {name: asked[name] for name in ("default", "fallbacks")}


def of_wsgi(asked, site):
    from silkwaram.web import LABEL, LANGUAGE, WSGILanguageMiddleware

    def application(environ, _):
        return environ

    rules = rules_of(asked)
    of_tags = WSGILanguageMiddleware(application, tags=asked["tags"], **rules)
    of_site = WSGILanguageMiddleware(application, path=site, **rules)

    def given(middleware, header):
        environ = {} if header is None else {"HTTP_ACCEPT_LANGUAGE": header}
        setup_testing_defaults(environ)
        return middleware(environ, None)

    def answer(header):
        label = given(of_site, header)[LABEL]
        return {
            "language": given(of_tags, header)[LANGUAGE].lower(),
            "label": label("all").texts[0],
            "few": label("some").texts[0],
        }

    return {"answers": [answer(it) for it in asked["headers"]]}


def of_asgi(asked, site):
    from silkwaram.web import LABEL, LANGUAGE, ASGILanguageMiddleware

    given = {}

    async def application(scope, receive, send):
        given.update(scope)

    rules = rules_of(asked)
    of_tags = ASGILanguageMiddleware(application, tags=asked["tags"], **rules)
    of_site = ASGILanguageMiddleware(application, path=site, **rules)

    async def answer(header):
        lines = [] if header is None else [(b"accept-language", header.encode("latin-1"))]
        scope = {"type": "http", "headers": lines}
        await of_tags(scope, None, None)
        language = given[LANGUAGE].lower()
        await of_site(scope, None, None)
        label = given[LABEL]
        return {
            "language": language,
            "label": label("all").texts[0],
            "few": label("some").texts[0],
        }

    async def answers():
        return [await answer(it) for it in asked["headers"]]

    return {"answers": asyncio.run(answers())}


def write_catalogues(folder, tags):
    """Empty catalogues of messages, without which Django chooses no language."""
    from django.utils.translation import to_locale

    for tag in tags:
        room = f"{folder}/locale/{to_locale(tag.lower())}/LC_MESSAGES"
        os.makedirs(room, exist_ok=True)
        with open(f"{room}/django.mo", "wb") as it:
            it.write(struct.pack("<7I", 0x950412DE, 0, 0, 28, 28, 0, 28))


def of_django(asked, site):
    from django.conf import settings

    folder = os.path.dirname(site)
    settings.configure(
        INSTALLED_APPS=["silkwaram"],
        LANGUAGE_CODE=asked["default"],
        LANGUAGES=[(it.lower(), it) for it in asked["tags"]],
        LOCALE_PATHS=[f"{folder}/locale"],
        ROOT_URLCONF="urls_of_none",
        SILKWARAM_FALLBACKS=asked["fallbacks"],
        SILKWARAM_SITE=site,
        USE_I18N=True,
    )
    import types

    import django

    write_catalogues(folder, asked["tags"])
    sys.modules["urls_of_none"] = types.ModuleType("urls_of_none")
    sys.modules["urls_of_none"].urlpatterns = []
    django.setup()
    from django.http import HttpResponse
    from django.test import RequestFactory
    from django.utils.translation import get_language
    from silkwaram.django import LocaleMiddleware, label

    answers = []

    def view(request):
        answers.append({
            "language": get_language(),
            "label": label(request, "all").texts[0],
            "few_in": label(request, "some").texts[0],
        })
        return HttpResponse()

    middleware = LocaleMiddleware(view)
    for header in asked["headers"]:
        words = {} if header is None else {"HTTP_ACCEPT_LANGUAGE": header}
        middleware(RequestFactory().get("/", **words))
    return {"answers": answers, "own": True}


def of_http(asked, _, address):
    connection = http.client.HTTPConnection(address, timeout=300)

    def said(path, header):
        connection.putrequest("GET", path)
        if header is not None:
            connection.putheader("Accept-Language", header.encode("latin-1"))
        connection.endheaders()
        response = connection.getresponse()
        text = response.read().decode()
        return text if response.status == 200 else f"status {response.status}"

    return {"answers": [
        {
            "language": said("/language", it).lower(),
            "label": said("/label", it),
            "few": said("/few", it),
        }
        for it in asked["headers"]
    ]}


def of_program(asked, site, program):
    def said(name, header):
        field = "*" if header is None else header
        words = [program, site, name, field.encode("latin-1"), asked["default"]]
        words.append(asked["fallbacks"] or "")
        return subprocess.run(words, stdout=subprocess.PIPE, check=True).stdout.decode().strip()

    return {"answers": [
        {"label": said("all", it), "few": said("some", it)} for it in asked["headers"]
    ]}


KINDS = {
    "wsgi": of_wsgi, "asgi": of_asgi, "django": of_django, "http": of_http, "program": of_program,
}


def main(kind, *rest):
    *more, folder = rest
    with open(f"{folder}/asked.json", encoding="utf-8") as it:
        asked = json.load(it)
    json.dump(KINDS[kind](asked, f"{folder}/site.json", *more), sys.stdout)


if __name__ == "__main__":
    main(*sys.argv[1:])
