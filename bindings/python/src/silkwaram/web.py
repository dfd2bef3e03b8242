"""Middleware for WSGI and ASGI that gives an application its reader's language.

    app = WSGILanguageMiddleware(app, tags=["en", "fr"], default="en")
    app = ASGILanguageMiddleware(app, path="site.json", message="title", default="en")

The application finds in its environ or scope, under the names that this module has for them:

- `LANGUAGE`: with `tags` the one that the reader gets by `pick`, with a site the language of the
  label of `message` that the reader gets. It is None if the reader gets none, and if a site
  has no such label or no `message` is named;
- `LABEL`, with a site alone: a function that returns the `Label` of a message id that the reader
  gets, or None. Within one request all labels come from the same version of the site.

The site is an open or a mapped `site`, or that of the file at `path`, which is read anew when the
file was replaced: it is looked at once a second at most, and by a thread of its own. A file that is
missing or broken leaves the site as it was; a warning is logged, and the file is tried again. Its
labels in languages of private use, as `x-note`, are shown to no reader, unless `offer` has them.

A reader who excludes the default too still gets it, as RFC 9110 section 12.5.4 allows; with
`strict` such a reader gets None. A language finds its regions too, as `en` finds `en-US`; without
`widen` it does not, as RFC 4647's lookup has it. By a table of `fallbacks`, as `no=nb`, it finds
the one that is next to it, before its regions.

Each response gets `Vary: Accept-Language` beside what the application varies by; a `Vary` of `*`
stays. It gets `Content-Language`, unless the application sets one, the language is None or `@none`,
or the status is one without content (204, 304).

No header is no preference, and several are one field, joined with commas. A field that is refused
counts as no header. `lenient`, which is the rule here, skips what is malformed of a field in place
of refusing the whole.
"""
from typing import (
    Any, Awaitable, Callable, Dict, Generic, Iterable, List, MutableMapping, NamedTuple, Optional,
    Tuple, TypeVar,
)

from . import Label, Refused, pick
from ._questions import Questions
from ._site_file import Path, SiteFile

__all__ = ["ASGILanguageMiddleware", "LABEL", "LANGUAGE", "WSGILanguageMiddleware"]

LANGUAGE = "silkwaram.language"
LABEL = "silkwaram.label"

WITHOUT_CONTENT = (204, 304)
RESPONSE_STARTS = ("http.response.start", "websocket.http.response.start")

Headers = List[Tuple[str, str]]
WSGIApp = Callable[[Dict[str, Any], Callable[..., Any]], Iterable[bytes]]
Scope = MutableMapping[str, Any]
Receive = Callable[[], Awaitable[MutableMapping[str, Any]]]
Send = Callable[[MutableMapping[str, Any]], Awaitable[None]]
ASGIApp = Callable[[Scope, Receive, Send], Awaitable[None]]
Found = TypeVar("Found")
App = TypeVar("App")


class _Reader(NamedTuple):
    """What an application gets of its reader, under its names, and the language alone."""

    given: Dict[str, Any]
    language: Optional[str]


def _varied(values: List[str]) -> Optional[str]:
    """The Vary of a response, or None if those that it has are enough."""
    names = [name.strip() for value in values for name in value.split(",")]
    if "*" in names or "accept-language" in (name.lower() for name in names):
        return None
    return ", ".join([name for name in names if name] + ["Accept-Language"])


def _with_language(headers: Headers, status: int, language: Optional[str]) -> Headers:
    """The headers of a response, with Vary and Content-Language."""
    vary = _varied([value for name, value in headers if name.lower() == "vary"])
    if vary is not None:
        headers = [it for it in headers if it[0].lower() != "vary"] + [("Vary", vary)]
    is_set = any(name.lower() == "content-language" for name, _ in headers)
    if language in (None, "@none") or is_set or status in WITHOUT_CONTENT:
        return headers
    return headers + [("Content-Language", str(language))]


class _LanguageMiddleware(Generic[App]):
    """An application that gives another one the language of its reader; see the module."""

    def __init__(
        self,
        app: App,
        *,
        tags: Optional[Iterable[str]] = None,
        site: Optional[Questions] = None,
        path: Optional[Path] = None,
        message: Optional[str] = None,
        default: Optional[str],
        offer: Optional[str] = None,
        fallbacks: Optional[str] = None,
        lenient: bool = True,
        widen: bool = True,
        strict: bool = False,
    ) -> None:
        """Takes `tags`, a `site`, or the `path` of one. `default` may be None.

        `offer` says which of the tags, or of the languages of a site, readers are offered, as an
        Accept-Language header is written; None is all tags, and all languages of a site but those
        of private use. `fallbacks` is as in `pick`.

        Refused: the message (10), the default (1 to 4), the offer (8, 9), the fallbacks (8, 31),
        the tags (1 to 4), the file as by `Site.open`. A file that cannot be read is an OSError.
        """
        if [tags, site, path].count(None) != 2:
            raise TypeError("one of tags, site and path must be given")
        if message is not None and tags is not None:
            raise TypeError("message is of a site")
        self.app, self._message, self._strict = app, message, strict
        self._rules: Dict[str, Any] = {
            "default": default, "lenient": lenient, "widen": widen,
            "offer": offer or None, "fallbacks": fallbacks,
        }
        self._site = site if path is None else SiteFile(path)
        # (what the application gives is refused here, and never in a request)
        if self._site is not None:
            shared = self._site.share()
            id = "-" if message is None else message
            shared.lookup(id, None, **self._rules)
        elif tags is not None:
            self._tags = tags if isinstance(tags, (str, bytes)) else list(tags)
            if pick(None, self._tags, **self._rules) is None and default is not None:
                raise ValueError(f"the default {default!r} is not among the tags that are offered")

    def _reader(self, field: Optional[bytes]) -> _Reader:
        """Returns the reader of a field; a field that is refused counts as none."""
        try:
            return self._reader_of(field)
        except Refused:
            return self._reader_of(None)

    def _reader_of(self, field: Optional[bytes]) -> _Reader:
        if self._site is None:
            language = self._found(lambda it: pick(it, self._tags, **self._rules), field)
            return _Reader({LANGUAGE: language}, language)
        # (so that a field is refused here, and not when the application asks for a label)
        pick(field, [], lenient=self._rules["lenient"])
        # (the site is let go with the function)
        site = self._site.share()

        def label(id: str) -> Optional[Label]:
            return self._found(lambda it: site.lookup(id, it, **self._rules), field)

        first = None if self._message is None else label(self._message)
        language = None if first is None else first.language
        return _Reader({LANGUAGE: language, LABEL: label}, language)

    def _found(
        self, ask: Callable[[Optional[bytes]], Optional[Found]], field: Optional[bytes]
    ) -> Optional[Found]:
        """What is found by a field; without `strict` the default if that finds nothing."""
        found = ask(field)
        return ask(None) if found is None and not self._strict else found


class WSGILanguageMiddleware(_LanguageMiddleware[WSGIApp]):
    """A WSGI application that gives another one the language of its reader; see the module."""

    def __call__(
        self, environ: Dict[str, Any], start_response: Callable[..., Any]
    ) -> Iterable[bytes]:
        """Answers with what the application returns, as it is."""
        field = environ.get("HTTP_ACCEPT_LANGUAGE")
        reader = self._reader(None if field is None else field.encode("latin-1", "replace"))

        def start(status: str, headers: Headers, *exc_info: Any) -> Any:
            changed = _with_language(headers, int(status[:3]), reader.language)
            return start_response(status, changed, *exc_info)

        environ.update(reader.given)
        return self.app(environ, start)


class ASGILanguageMiddleware(_LanguageMiddleware[ASGIApp]):
    """An ASGI application that gives another one the language of its reader; see the module.

    A websocket has it in its scope alone: there is no header to add, unless it is answered by an
    HTTP response. Any other scope, as lifespan, passes as it is.
    """

    async def __call__(self, scope: Scope, receive: Receive, send: Send) -> None:
        """Passes the request on, and what the application sends."""
        if scope["type"] not in ("http", "websocket"):
            await self.app(scope, receive, send)
            return
        fields = [value for name, value in scope["headers"] if name == b"accept-language"]
        reader = self._reader(b", ".join(fields) if fields else None)

        async def send_on(event: MutableMapping[str, Any]) -> None:
            if event["type"] in RESPONSE_STARTS:
                given = [
                    (name.decode("latin-1"), value.decode("latin-1"))
                    for name, value in event.get("headers", ())
                ]
                changed = _with_language(given, event["status"], reader.language)
                added = [
                    (name.lower().encode("latin-1"), value.encode("latin-1"))
                    for name, value in changed
                ]
                event = {**event, "headers": added}
            await send(event)

        await self.app({**scope, **reader.given}, receive, send_on)
