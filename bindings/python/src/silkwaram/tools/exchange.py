"""`lexicat-exchange`: exchanges the site of a file with that of a server which speaks the protocol
of the editor: sends what the server lacks, and takes what it has. lexicat-exchange(1) has the
details.
"""
import argparse
import http.client
import json
import re
import sys
import time
import zlib
from typing import Dict, List, NamedTuple, Optional
from urllib.parse import urlsplit

from ._arguments import Arguments
from ._documents import rows_of
from ._log import moment
from ._shared import LIMIT, NO_FILE, REFUSED, Fault, Program, compact, print_lines
from .file import ExchangedFile

USAGE_TEXT = """\
Usage: lexicat-exchange [--key-file FILE] [--wait SECONDS] [--every TIME] URL SITE

Exchanges the site in the file SITE with that of the server at URL, as the
editor's page does: sends what the server lacks, applies what it has, and prints
how many labels and deletions went each way. A step that is lost, or done twice,
does no harm. If nothing could be applied, SITE is as it was.

  --key-file FILE   the first line of FILE is the key that the server asks for
  --wait SECONDS    wait no longer than this for the lock of SITE
  --every TIME      exchange again and again, with so much time between: 90s, 15m
                    or 2h; each time prints a line of JSON
  -h, --help        print this
  --version         print the version
"""
PROGRAM = Program("lexicat-exchange", USAGE_TEXT)
NOBODY = 8
# Seconds for one request, and the most of a fault that is shown.
LONGEST, MOST_SHOWN = 120, 1000
HEADER = "Silkwaram-Exchange"
CONNECTIONS = {"http": http.client.HTTPConnection, "https": http.client.HTTPSConnection}
UNITS = {"s": 1, "m": 60, "h": 3600}


class Server(NamedTuple):
    """The server, with the key that it asks for."""

    url: str
    key: Optional[str]


class Exchanged(NamedTuple):
    """How many cells went each way."""

    sent: int
    received: int


def main(words: Optional[List[str]] = None) -> int:
    """Runs the program, and returns its status."""
    return PROGRAM.run(_main, words)


def _main(words: List[str]) -> int:
    args = _arguments(words)
    server = Server(args.url.rstrip("/"), _key(args.key_file))
    if args.every is not None:
        return _again(server, args.site, args.wait, args.every)
    made = exchange(server, args.site, args.wait)
    print_lines([f"sent {made.sent}, received {made.received}"])
    return 0


def _arguments(words: List[str]) -> argparse.Namespace:
    """What the words of the command line say."""
    parser = Arguments(PROGRAM)
    parser.add_argument("--key-file")
    parser.add_argument("--wait", type=_seconds)
    parser.add_argument("--every", type=_time)
    parser.add_argument("url", type=_address, metavar="URL")
    parser.add_argument("site", metavar="SITE")
    return parser.parse_args(words)


def _seconds(word: str) -> int:
    if not re.fullmatch("[0-9]{1,9}", word, re.ASCII):
        raise argparse.ArgumentTypeError("SECONDS is not a whole number")
    return int(word)


def _time(word: str) -> int:
    """The seconds of a time."""
    if not re.fullmatch("[0-9]{1,6}[smh]", word, re.ASCII):
        raise argparse.ArgumentTypeError("TIME is a whole number followed by s, m or h, as 15m")
    return int(word[:-1]) * UNITS[word[-1]]


def _address(word: str) -> str:
    try:
        parts = urlsplit(word)
        is_address = parts.scheme in CONNECTIONS and bool(parts.hostname)
    except ValueError:
        is_address = False
    if not is_address:
        raise argparse.ArgumentTypeError(f"{word} is not an address of http or https")
    return word


def _key(name: Optional[str]) -> Optional[str]:
    """The key in a file, if one is named."""
    if name is None:
        return None
    try:
        with open(name, encoding="utf-8", errors="replace") as lines:
            key = lines.readline(1000).rstrip("\r\n")
    except OSError:
        raise Fault(f"{name}: not a file that may be read", NO_FILE) from None
    if not re.fullmatch("[A-Za-z0-9]+", key, re.ASCII):
        PROGRAM.misused(f"{name} has no key of letters and digits")
    return key


def _again(server: Server, site: str, wait: Optional[int], seconds: int) -> int:
    """Exchanges until a signal comes, and prints a line each time."""
    while True:
        line: Dict[str, object] = {"when": moment(time.time())}
        try:
            made = exchange(server, site, wait)
            line.update(status=0, sent=made.sent, received=made.received)
        except Fault as fault:
            line.update(status=fault.status, words=str(fault) or "see standard error")
        print_lines([compact(line)])
        time.sleep(seconds)


def exchange(server: Server, site: str, wait: Optional[int] = None) -> Exchanged:
    """Exchanges once: sends, then takes."""
    file = ExchangedFile(site, wait, PROGRAM)
    delta = file.delta("the server's summary", _ask(server, "GET", "summary"))
    # (what is no delta has no rows, and its taking refuses it)
    sent = len(rows_of(delta))
    if sent:
        _ask(server, "POST", "delta", delta)
    received = _ask(server, "POST", "summary", file.summary())
    file.take("the server's delta", received)
    return Exchanged(sent, len(rows_of(received)))


def _ask(server: Server, method: str, path: str, body: Optional[bytes] = None) -> bytes:
    """Asks the server, and returns what it answers."""
    parts = urlsplit(f"{server.url}/{path}")
    heads = {"Accept-Encoding": "gzip"}
    if server.key is not None:
        heads["Authorization"] = f"Bearer {server.key}"
    if body is not None:
        heads["Content-Type"] = "application/json"
    end = time.monotonic() + LONGEST
    try:
        connection = CONNECTIONS[parts.scheme](parts.netloc.rpartition("@")[2], timeout=LONGEST)
        query = f"?{parts.query}" if parts.query else ""
        connection.request(method, parts.path + query, body, heads)
        answer = connection.getresponse()
        text = _body(answer, end)
    except (OSError, http.client.HTTPException, zlib.error, ValueError) as fault:
        raise Fault(f"no answer: {fault or type(fault).__name__}", NOBODY) from None
    if answer.headers.get(HEADER) is None:
        raise Fault(
            f"{server.url}/{path}: status {answer.status}, from a server that does not exchange",
            NOBODY,
        )
    if answer.status == 401:
        raise Fault("the server asks for its key (--key-file)", REFUSED)
    if answer.status != 200:
        raise Fault(f"the server answered status {answer.status}: {_words(text)}", REFUSED)
    return text


def _body(answer: http.client.HTTPResponse, end: float) -> bytes:
    """The body of an answer, unpacked. No document is longer than a command reads."""
    unpack = None
    if answer.headers.get("Content-Encoding", "").lower() in ("gzip", "x-gzip"):
        unpack = zlib.decompressobj(16 + zlib.MAX_WBITS)
    parts: List[bytes] = []
    size = 0
    while True:
        part = answer.read1(65536)
        if not part:
            break
        while part:
            made = part if unpack is None else unpack.decompress(part, 1 << 20)
            part = b"" if unpack is None else unpack.unconsumed_tail
            parts.append(made)
            size += len(made)
            if size > LIMIT:
                raise ValueError(f"it is longer than {LIMIT} bytes")
        if time.monotonic() > end:
            raise TimeoutError(f"it takes more than {LONGEST} seconds")
    # (`length` is what is left of a stated length)
    if answer.length or (unpack is not None and not unpack.eof):
        raise ValueError("it was cut")
    return b"".join(parts)


def _words(text: bytes) -> str:
    """What a server says of a fault, without what a terminal takes for something else."""
    shown = text[: 4 * MOST_SHOWN].decode("utf-8", "replace")
    try:
        shown = str(json.loads(text)["words"])
    except (ValueError, KeyError, TypeError, RecursionError):
        pass
    return "".join(it if it.isprintable() else " " for it in shown[:MOST_SHOWN])


if __name__ == "__main__":
    sys.exit(main())
