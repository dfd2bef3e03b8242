#!/usr/bin/env python3
"""Serves an application with the middleware of the Python package, over loopback.

usage: serve.py KIND SITE.json

It prints its address, and serves until it is ended. `/` answers with the language that the
application gets, `/label` with its labels, `/stream` in parts, `/vary` with a Vary of its own,
`/fault` by an exception; any other path is 404. Django has `/news/` too, below a language.
"""
import json
import logging
import socket
import sys
from wsgiref.simple_server import WSGIRequestHandler, make_server
from wsgiref.validate import validator

TAGS = ["en", "fr", "de"]
SETTINGS = {
    "ALLOWED_HOSTS": ["localhost", "127.0.0.1"],
    "DEBUG": False,
    "INSTALLED_APPS": ["silkwaram"],
    "LANGUAGES": [(it, it) for it in [*TAGS, "pt-br", "zh-hans"]],
    "LANGUAGE_CODE": "en-us",
    "LOGGING_CONFIG": None,
    "MIDDLEWARE": ["silkwaram.django.LocaleMiddleware"],
    "ROOT_URLCONF": "__main__",
    "SECRET_KEY": "of a check",
    "TEMPLATES": [{"BACKEND": "django.template.backends.django.DjangoTemplates"}],
    "USE_I18N": True,
}


def document(greetings):
    """The document of a site with a greeting in some languages."""
    cells = [
        ["greeting", language, 5, "paris", at, [text]]
        for at, (language, text) in enumerate(sorted(greetings.items()))
    ]
    return json.dumps({"cells": cells, "kind": "site", "site": "paris", "version": 2})


class Handler(WSGIRequestHandler):
    def log_message(self, *words):
        pass


def serve_wsgi(app):
    with make_server("127.0.0.1", 0, app, handler_class=Handler) as server:
        print(f"http://127.0.0.1:{server.server_port}", flush=True)
        server.serve_forever()


def serve_asgi(app, lifespan):
    import uvicorn

    with socket.create_server(("127.0.0.1", 0)) as listening:
        print(f"http://127.0.0.1:{listening.getsockname()[1]}", flush=True)
        config = uvicorn.Config(app, log_level="critical", lifespan=lifespan)
        uvicorn.Server(config).run(sockets=[listening])


def rules():
    return {"path": sys.argv[2], "message": "greeting", "default": "en"}


def wsgiref():
    """An application of PEP 3333 by hand, and the middleware, both checked by its validator."""
    from silkwaram.web import LABEL, LANGUAGE, WSGILanguageMiddleware

    def app(environ, start_response):
        path, headers = environ["PATH_INFO"], [("Content-Type", "text/plain")]
        if path == "/fault":
            raise KeyError("of the application")
        if path == "/vary":
            headers.append(("Vary", "Cookie"))
        is_there = path in ("/", "/label", "/stream", "/vary")
        start_response("200 OK" if is_there else "404 Not Found", headers)
        if path == "/label":
            return [environ[LABEL]("greeting").texts[0].encode()]
        language = str(environ[LANGUAGE]).encode()
        if environ["REQUEST_METHOD"] == "HEAD":
            return []
        return iter([b"part of ", language]) if path == "/stream" else [language]

    serve_wsgi(validator(WSGILanguageMiddleware(validator(app), **rules())))


def flask():
    from flask import Flask, Response, abort, request

    from silkwaram.web import LABEL, LANGUAGE, WSGILanguageMiddleware

    app = Flask(__name__)
    app.logger.disabled = True

    @app.route("/")
    def language():
        return str(request.environ[LANGUAGE])

    @app.route("/label")
    def label():
        return request.environ[LABEL]("greeting").texts[0]

    @app.route("/stream")
    def stream():
        return Response(iter(["part of ", str(request.environ[LANGUAGE])]))

    @app.route("/vary")
    def vary():
        return Response(str(request.environ[LANGUAGE]), headers={"Vary": "Cookie"})

    @app.route("/fault")
    def fault():
        raise KeyError("of the application")

    @app.route("/missing")
    def missing():
        abort(404)

    app.wsgi_app = WSGILanguageMiddleware(app.wsgi_app, **rules())
    serve_wsgi(app)


def uvicorn():
    """An application of ASGI by hand, which answers a lifespan too."""
    from silkwaram.web import LABEL, LANGUAGE, ASGILanguageMiddleware

    async def lifespan(receive, send):
        while True:
            event = await receive()
            await send({"type": f"{event['type']}.complete"})
            if event["type"] == "lifespan.shutdown":
                return

    async def app(scope, receive, send):
        if scope["type"] == "lifespan":
            await lifespan(receive, send)
            return
        path, headers = scope["path"], [(b"content-type", b"text/plain")]
        if path == "/fault":
            raise KeyError("of the application")
        if path == "/vary":
            headers.append((b"vary", b"Cookie"))
        status = 200 if path in ("/", "/label", "/stream", "/vary") else 404
        await send({"type": "http.response.start", "status": status, "headers": headers})
        if path == "/stream":
            await send({"type": "http.response.body", "body": b"part of ", "more_body": True})
        text = scope[LABEL]("greeting").texts[0] if path == "/label" else str(scope[LANGUAGE])
        await send({"type": "http.response.body", "body": text.encode()})

    serve_asgi(ASGILanguageMiddleware(app, **rules()), "on")


def starlette():
    from starlette.applications import Starlette
    from starlette.responses import PlainTextResponse, StreamingResponse
    from starlette.routing import Route

    from silkwaram.web import LABEL, LANGUAGE, ASGILanguageMiddleware

    async def language(request):
        return PlainTextResponse(str(request.scope[LANGUAGE]))

    async def label(request):
        return PlainTextResponse(request.scope[LABEL]("greeting").texts[0])

    async def stream(request):
        return StreamingResponse(iter(["part of ", str(request.scope[LANGUAGE])]))

    async def vary(request):
        return PlainTextResponse(str(request.scope[LANGUAGE]), headers={"Vary": "Cookie"})

    async def fault(request):
        raise KeyError("of the application")

    pages = [language, label, stream, vary, fault]
    routes = [Route("/" if it is language else f"/{it.__name__}", it) for it in pages]
    app = Starlette(routes=routes)
    app.add_middleware(ASGILanguageMiddleware, **rules())
    serve_asgi(app, "on")


def with_django():
    """Views, as Django finds them in this module."""
    global urlpatterns
    import django
    from django.conf import settings
    from django.conf.urls.i18n import i18n_patterns
    from django.http import HttpResponse, StreamingHttpResponse
    from django.template import engines
    from django.urls import path
    from django.utils import translation

    async def language(request):
        return HttpResponse(request.LANGUAGE_CODE)

    def label(request):
        template = engines["django"].from_string('{% load silkwaram %}{% label "greeting" %}')
        return HttpResponse(template.render({}, request))

    def stream(request):
        return StreamingHttpResponse(
            it() for it in (lambda: "part of ", lambda: translation.get_language())
        )

    def vary(request):
        return HttpResponse(request.LANGUAGE_CODE, headers={"Vary": "Cookie"})

    def fault(request):
        raise KeyError("of the application")

    pages = [language, label, stream, vary, fault]
    urlpatterns = [path("" if it is language else it.__name__, it) for it in pages]
    # (what the package says is to be seen)
    logging.getLogger("django").disabled = True
    logging.getLogger("django.request").disabled = True
    settings.configure(**SETTINGS, SILKWARAM_SITE=sys.argv[2])
    django.setup()
    urlpatterns += i18n_patterns(path("news/", language))


def django_wsgi():
    with_django()
    from django.core.wsgi import get_wsgi_application

    serve_wsgi(get_wsgi_application())


def django_asgi():
    with_django()
    from django.core.asgi import get_asgi_application

    serve_asgi(get_asgi_application(), "off")


KINDS = [wsgiref, flask, uvicorn, starlette, django_wsgi, django_asgi]

if __name__ == "__main__":
    {it.__name__: it for it in KINDS}[sys.argv[1]]()
