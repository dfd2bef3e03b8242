"""A server of its own for the application: connections, and what is logged of them."""
import http.server
import io
import socket
import time
from typing import Any, List, Optional, TextIO, Tuple
from urllib.parse import unquote

from ._application import PERSON, Application

# Seconds for which a connection may be silent.
LONGEST_SILENCE = 60


class Body(io.RawIOBase):
    """The body of a request, of which no more than its length is read."""

    def __init__(self, file: Any, length: int) -> None:
        self._file, self.left = file, length

    def read(self, size: int = -1) -> bytes:
        """Reads so many bytes, or all that are left."""
        wanted = self.left if size < 0 else min(size, self.left)
        made: bytes = self._file.read(wanted)
        self.left -= len(made)
        return made


class Handler(http.server.BaseHTTPRequestHandler):
    """One connection."""

    protocol_version = "HTTP/1.1"
    timeout = LONGEST_SILENCE
    server: "EditorServer"

    def do_GET(self) -> None:
        """Has the application answer."""
        path, _, query = self.path.partition("?")
        length = self.headers.get("Content-Length") or "0"
        is_plain = length.isascii() and length.isdecimal() and len(length) < 19
        body = Body(self.rfile, int(length) if is_plain else 0)
        environ = {
            "REQUEST_METHOD": self.command,
            "SCRIPT_NAME": "",
            "PATH_INFO": unquote(path, "latin-1"),
            "QUERY_STRING": query,
            "SERVER_NAME": self.server.server_name,
            "SERVER_PORT": str(self.server.server_port),
            "SERVER_PROTOCOL": self.request_version,
            "CONTENT_TYPE": self.headers.get("Content-Type", ""),
            "CONTENT_LENGTH": self.headers.get("Content-Length", ""),
            "wsgi.version": (1, 0),
            "wsgi.url_scheme": "http",
            "wsgi.input": body,
            "wsgi.multithread": True,
            "wsgi.multiprocess": False,
            "wsgi.run_once": False,
        }
        for name, value in self.headers.items():
            environ.setdefault("HTTP_" + name.upper().replace("-", "_"), value)
        made = self.server.application(environ, self._begin)
        # (what nobody read of a body would be taken for the next request)
        if body.left or not is_plain or "Transfer-Encoding" in self.headers:
            self.close_connection = True
            self.send_header("Connection", "close")
        self.end_headers()
        for it in made:
            self.wfile.write(it)
        self._log(environ.get(PERSON, "-"), sum(map(len, made)))

    do_HEAD = do_POST = do_GET

    def _begin(self, status: str, heads: List[Tuple[str, str]]) -> None:
        """Keeps the head of an answer, which is sent once it is known how the connection goes
        on."""
        number, _, phrase = status.partition(" ")
        self._status = number
        self.send_response_only(int(number), phrase)
        self.send_header("Server", "silkwaram")
        for name, value in heads:
            self.send_header(name, value)

    def _log(self, person: object, size: int) -> None:
        """Adds a line to the access log, in the common form, with the name of the person."""
        log = self.server.access_log
        if log is None:
            return
        when = time.strftime("%d/%b/%Y:%H:%M:%S +0000", time.gmtime())
        line = "".join(it if it.isprintable() and it != '"' else "?" for it in self.requestline)
        host = self.client_address[0]
        print(f'{host} - {person} [{when}] "{line}" {self._status} {size}', file=log, flush=True)

    def log_message(self, *_: object) -> None:
        """Says nothing of connections: what is answered is in the access log."""


class EditorServer(http.server.ThreadingHTTPServer):
    """Serves the page, and exchanges the site of a file with those of its users."""

    daemon_threads = True

    def __init__(
        self,
        path: str,
        name: str = "server",
        host: str = "localhost",
        port: int = 8080,
        token: Optional[str] = None,
        tokens: Optional[str] = None,
        access_log: Optional[TextIO] = None,
    ) -> None:
        """Listens on an address. A file that is not there becomes the empty site of the name."""
        if ":" in host:
            self.address_family = socket.AF_INET6
        super().__init__((host, port), Handler, bind_and_activate=False)
        try:
            # (a port that is taken leaves no file)
            self.server_bind()
            shown = f"[{host}]" if ":" in host else host
            self.address = f"http://{shown}:{self.server_port}/"
            names = ("localhost", "127.0.0.1", "[::1]", shown)
            known = {f"{it}:{self.server_port}" for it in names}
            if self.server_port == 80:
                known |= set(names)
            self.application = Application(path, name, token, tokens, known)
            self.access_log = access_log
            self.server_activate()
        except BaseException:
            self.server_close()
            raise

    def handle_error(self, *_: object) -> None:
        """Says nothing of connections that end early."""
