"""The command `python -m silkwaram.editor`."""
import argparse
import ipaddress
import os
import sys
from typing import List, Optional, TextIO

from silkwaram import Refused

from ._people import KeyFault, is_key
from ._server import EditorServer

HELP = """\
usage: python -m silkwaram.editor [OPTION..] [SITE.json]

Serves a page on which translators edit the labels of a site, and exchanges
their edits with the file SITE.json (site.json), which is made if it is not there.

  --port N        the port: 8080, or one that is free if N is 0
  --name NAME     what a new site is called: "server", or 1 to 16 of a-z, 0-9, "-"
  --host ADDRESS  listens on this address too, for others; wants --token, and a
                  server before it that speaks https
  --token TOKEN   asks each request of an exchange for this key. "-" reads it
                  from the variable SILKWARAM_TOKEN, which other users do not see
  --tokens FILE   asks for a key of one's own: a line of FILE is a person, "NAME
                  KEY: LANGUAGES", with the languages that they edit, or * for all
                  of them, or "read" for none
  --access-log FILE
                  adds a line for each request to FILE, "-" to standard error
  -h, --help      print this
"""


def fail(words: str) -> int:
    """Says what is wrong."""
    print(f"silkwaram.editor: {words}", file=sys.stderr)
    return 2


def arguments(words: List[str]) -> argparse.Namespace:
    """What the words of the command line say."""
    parser = argparse.ArgumentParser(prog="silkwaram.editor", add_help=False, allow_abbrev=False)
    parser.add_argument("--port", type=int, default=8080)
    parser.add_argument("--name", default="server")
    parser.add_argument("--host", default="localhost")
    parser.add_argument("--token")
    parser.add_argument("--tokens")
    parser.add_argument("--access-log")
    parser.add_argument("site", nargs="?", default="site.json")
    return parser.parse_args(words)


def opened_log(name: str) -> TextIO:
    """The access log of a name."""
    return sys.stderr if name == "-" else open(name, "a", encoding="utf-8")


def is_of_this_machine(host: str) -> bool:
    """Whether an address is reached from this machine alone."""
    if host == "localhost":
        return True
    try:
        return ipaddress.ip_address(host).is_loopback
    except ValueError:
        return False


def main(words: Optional[List[str]] = None) -> int:
    """Serves until it is interrupted, and returns the status to end with."""
    words = sys.argv[1:] if words is None else words
    if "-h" in words or "--help" in words:
        print(HELP, end="")
        return 0
    args = arguments(words)
    token = args.token
    if token == "-":
        token = os.environ.get("SILKWARAM_TOKEN", "")
    if token is not None and not is_key(token):
        return fail("a token is 8 to 255 letters and digits")
    if token is not None and args.tokens is not None:
        return fail("--token and --tokens exclude one another")
    if token is None and args.tokens is None and not is_of_this_machine(args.host):
        return fail(f"--host {args.host} lets others edit: give --token or --tokens too")
    try:
        log = None if args.access_log is None else opened_log(args.access_log)
        server = EditorServer(args.site, args.name, args.host, args.port, token, args.tokens, log)
    except KeyFault as fault:
        return fail(str(fault))
    except (OSError, OverflowError, Refused) as fault:
        return fail(f"{args.site}, port {args.port}: {fault}")
    print(server.address, flush=True)
    try:
        server.serve_forever()
    except KeyboardInterrupt:
        pass
    finally:
        server.server_close()
    return 0


if __name__ == "__main__":
    sys.exit(main())
