"""The page, and the exchange that README.md states, as an application of WSGI (PEP 3333)."""
import errno
import gzip
import json
import sys
from email.utils import formatdate
from http import HTTPStatus
from typing import Any, Callable, Dict, Iterable, List, NamedTuple, Optional, Set, Tuple
from urllib.parse import parse_qs

from silkwaram import Refused, __version__

from ._exchange import Exchange
from ._files import page_files
from ._people import KeyFault, OneKey, People, Person, is_key
from ._po import PoFault, edits_in, po_of

LARGEST = 64 * 1024 * 1024
# (a PO file of Django's has some 50 KB a language)
LARGEST_PO = 8 * 1024 * 1024
# (bytes of an answer below which gzip is of no use)
LEAST_PACKED = 1024
POLICY = (
    "default-src 'none'; script-src 'self' 'wasm-unsafe-eval'; style-src 'self'; img-src 'self';"
    " connect-src 'self'; worker-src 'self'; base-uri 'none'; form-action 'none';"
    " frame-ancestors 'none'"
)
ON_ALL = {
    "Content-Security-Policy": POLICY,
    "X-Frame-Options": "DENY",
    "X-Content-Type-Options": "nosniff",
    "Referrer-Policy": "no-referrer",
    "Cross-Origin-Opener-Policy": "same-origin",
    "Cross-Origin-Resource-Policy": "same-origin",
    "Vary": "Accept-Encoding",
    "Cache-Control": "no-cache",
}
# By which a page knows that it was this server that answered, and no page of a network.
EXCHANGE = "Silkwaram-Exchange"
JSON, PO = "application/json", "text/x-gettext-translation"
# Where the environment of a request keeps who asked, for an access log.
PERSON = "silkwaram.person"

Answer = Tuple[bytes, Optional[str]]
Environ = Dict[str, Any]


class Fault(Exception):
    """Why a request of an exchange is not done: a status, and words."""

    def __init__(self, status: HTTPStatus, words: str, **more: int) -> None:
        super().__init__(words)
        self.status, self.more = status, more


class Response(NamedTuple):
    """What a request is answered."""

    status: HTTPStatus
    kind: Optional[str]
    content: bytes
    heads: Dict[str, str]
    packed: Optional[bytes] = None


class Request:
    """A request, as the environment of WSGI has it."""

    def __init__(self, environ: Environ) -> None:
        self.environ = environ
        self.method: str = environ["REQUEST_METHOD"]
        self.path: str = environ.get("PATH_INFO") or "/"

    def header(self, name: str) -> str:
        """A header, or an empty text."""
        return str(self.environ.get("HTTP_" + name.upper().replace("-", "_"), ""))

    def query(self, name: str) -> str:
        """What the address says of a name, or an empty text."""
        found = parse_qs(self.environ.get("QUERY_STRING", ""))
        return found.get(name, [""])[0]

    def takes_gzip(self) -> bool:
        """Whether the answer may be packed."""
        return "gzip" in self.header("Accept-Encoding")

    def body(self, kind: str) -> bytes:
        """The body, which has to be of a type and of a stated length."""
        # (a page of another server cannot send these types without asking first)
        given = str(self.environ.get("CONTENT_TYPE") or "").partition(";")[0].strip().lower()
        if given != kind:
            raise Fault(HTTPStatus.UNSUPPORTED_MEDIA_TYPE, f"{kind} is wanted")
        length = str(self.environ.get("CONTENT_LENGTH") or "")
        if not (length.isascii() and length.isdecimal()):
            raise Fault(HTTPStatus.LENGTH_REQUIRED, "a Content-Length is wanted")
        largest = LARGEST_PO if kind == PO else LARGEST
        if len(length) > 9 or int(length) > largest:
            raise Fault(HTTPStatus.REQUEST_ENTITY_TOO_LARGE, f"{largest} bytes are the most")
        body: bytes = self.environ["wsgi.input"].read(int(length))
        if len(body) < int(length):
            raise Fault(HTTPStatus.BAD_REQUEST, "the body ended early")
        return body


class Application:
    """The page and the exchange of the site in a file, under a server of WSGI or in a prefix of
    one.

    `token` is the one key that is asked for; `tokens` is a file of keys, one for each person;
    `names` are the hosts, each with its port if that is not the usual one, that are served without
    a key. One of the three is wanted. Refused: as by `silkwaram.edit`; a ValueError if a key is
    none, or if none of the three is given; a `KeyFault` of the file of keys.
    """

    def __init__(
        self,
        path: str,
        name: str = "server",
        token: Optional[str] = None,
        tokens: Optional[str] = None,
        names: Iterable[str] = (),
    ) -> None:
        if token is not None and not is_key(token):
            raise ValueError("a token is 8 to 255 letters and digits")
        if token is not None and tokens is not None:
            raise ValueError("token and tokens exclude one another")
        self.names: Set[str] = set(names)
        self._has_keys = token is not None or tokens is not None
        if not self._has_keys and not self.names:
            raise ValueError("token, tokens or names is wanted: without them nobody may ask")
        self._people = OneKey(token) if tokens is None else People(tokens)
        self._files = page_files()
        self._exchange = Exchange(path, name)

    def __call__(
        self, environ: Environ, start_response: Callable[[str, List[Tuple[str, str]]], Any]
    ) -> List[bytes]:
        """Answers a request."""
        request = Request(environ)
        it = self._answer(request)
        body = it.content if it.packed is None else it.packed
        heads = {**ON_ALL, "Date": formatdate(usegmt=True)}
        if it.kind:
            heads["Content-Type"] = it.kind
        if it.status != HTTPStatus.NOT_MODIFIED:
            heads["Content-Length"] = str(len(body))
        if it.packed is not None:
            heads["Content-Encoding"] = "gzip"
        heads.update(it.heads)
        start_response(f"{int(it.status)} {it.status.phrase}", list(heads.items()))
        return [] if request.method == "HEAD" or it.status == HTTPStatus.NOT_MODIFIED else [body]

    def _answer(self, request: Request) -> Response:
        if request.path == "/healthz" and request.method in ("GET", "HEAD"):
            return self._health()
        if not request.environ.get("PATH_INFO") and request.environ.get("SCRIPT_NAME"):
            # (the page names its files from the folder that it is in)
            place = {"Location": f"{request.environ['SCRIPT_NAME']}/"}
            return Response(HTTPStatus.PERMANENT_REDIRECT, "text/plain", b"", place)
        words = self._why_not_ours(request)
        if words is not None:
            return _failed(Fault(HTTPStatus.MISDIRECTED_REQUEST, words))
        if request.method in ("GET", "HEAD"):
            asked = {"/summary": self._exchange.summary, "/po": lambda: self._po(request)}
            if request.path in asked:
                kind = PO if request.path == "/po" else JSON
                return self._exchanged(request, lambda person: asked[request.path](), kind)
            return self._file(request)
        if request.method == "POST":
            taken = {
                "/summary": lambda person, body: self._exchange.delta_for(body),
                "/delta": self._take,
                "/po": lambda person, body: self._take_po(request, person, body),
            }
            call = taken.get(request.path)
            if call is None:
                return _failed(Fault(HTTPStatus.NOT_FOUND, "there is nothing at this address"))
            kind = PO if request.path == "/po" else JSON
            # (the key is asked before the body is read: who has none sends none in vain)
            return self._exchanged(request, lambda person: call(person, request.body(kind)), JSON)
        made = _failed(Fault(HTTPStatus.METHOD_NOT_ALLOWED, "GET, HEAD and POST are answered"))
        return made._replace(heads={**made.heads, "Allow": "GET, HEAD, POST"})

    def _why_not_ours(self, request: Request) -> Optional[str]:
        """Why a request is for another server, or of a page of another one; None if it is not."""
        # (a name of another that leads to this machine would let its pages in; a key does not)
        if not self._has_keys and request.header("Host") not in self.names:
            return f"this server is {' and '.join(sorted(self.names))}"
        if (request.header("Sec-Fetch-Site") or "none") not in ("same-origin", "none"):
            # (a link of another page to this one is followed)
            if request.header("Sec-Fetch-Mode") != "navigate" or request.method == "POST":
                return "no page of another server may ask this one"
        return None

    def _health(self) -> Response:
        """Whether the site can be read, for a watch over servers, which has no key."""
        try:
            self._exchange.tag()
        except (OSError, MemoryError, Refused) as fault:
            print(f"silkwaram.editor: {fault!r}", file=sys.stderr, flush=True)
            words = {"status": "the file of the site has a fault"}
            return Response(HTTPStatus.SERVICE_UNAVAILABLE, JSON, _json(words), {})
        return Response(HTTPStatus.OK, JSON, _json({"status": "ok", "version": __version__}), {})

    def _file(self, request: Request) -> Response:
        """A file of the page."""
        file = self._files.get(request.path[1:] or "index.html")
        if file is None:
            return _failed(Fault(HTTPStatus.NOT_FOUND, "there is nothing at this address"))
        heads = {"ETag": file.tag}
        if request.header("If-None-Match") == file.tag:
            return Response(HTTPStatus.NOT_MODIFIED, None, b"", heads)
        packed = file.packed if request.takes_gzip() else None
        return Response(HTTPStatus.OK, file.kind, file.content, heads, packed)

    def _exchanged(
        self, request: Request, run: Callable[[Person], Answer], kind: str
    ) -> Response:
        """Answers a request of an exchange."""
        try:
            person = self._person(request)
            wanted = request.header("If-None-Match")
            if wanted and request.method != "POST" and self._exchange.tag() == wanted:
                return Response(HTTPStatus.NOT_MODIFIED, None, b"", {"ETag": wanted, EXCHANGE: "1"})
            made, tag = run(person)
        except Fault as fault:
            return _failed(fault)
        except PoFault as fault:
            return _failed(Fault(HTTPStatus.UNPROCESSABLE_ENTITY, str(fault)))
        except Refused as refused:
            words = str(refused).partition(": ")[2]
            number = {"number": refused.number}
            return _failed(Fault(HTTPStatus.UNPROCESSABLE_ENTITY, words, **number))
        except TimeoutError:
            return _failed(Fault(HTTPStatus.SERVICE_UNAVAILABLE, "the file of the site is in use"))
        except (OSError, MemoryError, KeyFault) as fault:
            print(f"silkwaram.editor: {fault!r}", file=sys.stderr, flush=True)
            words = "the file of the site has a fault"
            if isinstance(fault, KeyFault):
                words = "the file of keys has a fault"
            elif isinstance(fault, OSError) and fault.errno == errno.ESTALE:
                words = "the file of the site was put back to an older copy"
            return _failed(Fault(HTTPStatus.INTERNAL_SERVER_ERROR, words))
        is_worth = len(made) >= LEAST_PACKED and request.takes_gzip()
        packed = gzip.compress(made, 1) if is_worth else None
        heads = {EXCHANGE: "1", **({"ETag": tag} if tag else {})}
        return Response(HTTPStatus.OK, kind, made, heads, packed)

    def _person(self, request: Request) -> Person:
        """Who asks. A request without a right key is a Fault."""
        person = self._people.with_key(request.header("Authorization"))
        if person is None:
            raise Fault(HTTPStatus.UNAUTHORIZED, "the key of this server is wanted")
        request.environ[PERSON] = person.name
        return person

    def _take(self, person: Person, delta: bytes) -> Answer:
        """Takes a delta, and says which states the site had before and after."""
        expect_own_languages(person, delta)
        before, after = self._exchange.take(person.name, delta)
        return _json({"before": before, "after": after}), after

    def _languages(self, request: Request) -> Tuple[str, str]:
        """The language and the source that the address of a PO file names."""
        lang, source = request.query("lang"), request.query("source")
        # (no word of a program has a zero byte)
        if not lang or not source or "\0" in lang + source:
            raise Fault(HTTPStatus.BAD_REQUEST, "/po?lang=LANG&source=LANG is wanted")
        return lang, source

    def _po(self, request: Request) -> Answer:
        """The PO file of a language."""
        lang, source = self._languages(request)
        return po_of(self._exchange.document(), lang, source), None

    def _take_po(self, request: Request, person: Person, po: bytes) -> Answer:
        """Takes what is translated in a PO file, and says what is left out."""
        lang, source = self._languages(request)
        if not person.may_edit(lang):
            raise Fault(HTTPStatus.FORBIDDEN, f"{person.name} edits {person.shown_languages()}")
        old, new, said = edits_in(self._exchange.document(), po, lang, source)
        self._exchange.update(person.name, old, new)
        return _json({"misfits": said}), None


def expect_own_languages(person: Person, delta: bytes) -> None:
    """Each cell of a delta is of a language that a person edits. What is no delta is left to its
    taking, which refuses it."""
    if person.languages is None:
        return
    try:
        cells = json.loads(delta)["cells"]
        keys = [(str(it[0]), str(it[1])) for it in cells]
    except (ValueError, KeyError, TypeError, IndexError, RecursionError):
        return
    for row, (id, language) in enumerate(keys):
        if not person.may_edit(language):
            key = f"message {json.dumps(id, ensure_ascii=False)} in {language}"
            words = f"row {row}, {key}: {person.name} edits {person.shown_languages()}"
            raise Fault(HTTPStatus.FORBIDDEN, words, row=row)


def _json(value: Dict[str, Any]) -> bytes:
    return json.dumps(value).encode() + b"\n"


def _failed(fault: Fault) -> Response:
    """Says why a request is not done."""
    heads = {EXCHANGE: "1"}
    if fault.status == HTTPStatus.UNAUTHORIZED:
        heads["WWW-Authenticate"] = "Bearer"
    return Response(fault.status, JSON, _json({"words": str(fault), **fault.more}), heads)
