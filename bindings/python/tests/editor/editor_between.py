"""What is between the browsers of the editor and its server."""
import contextlib
import http.client
import http.server
import threading

# Seconds that a server which hangs does so: longer than anything waits.
HANGS = 900
PORTAL = b"<!doctype html><title>Hotel WiFi</title><form action='/login'>Log in</form>"

# The headers that go through it, of answers and of requests.
PASSED = (
    "Content-Type", "Content-Encoding", "Cache-Control", "ETag", "Silkwaram-Exchange", "Date",
    "Content-Security-Policy", "Vary",
)
ASKED = (
    "Content-Type", "If-None-Match", "Authorization", "Accept-Encoding", "Sec-Fetch-Site",
    "Sec-Fetch-Mode",
)


class Way(http.server.BaseHTTPRequestHandler):
    """Between the browsers and the server: it loses, doubles, hangs and lies as it is said to."""

    protocol_version = "HTTP/1.1"

    def do_GET(self):
        self.pass_on(b"")

    do_HEAD = do_GET

    def do_POST(self):
        self.pass_on(self.rfile.read(int(self.headers["Content-Length"])))

    def pass_on(self, body):
        way = self.server
        is_exchange = self.path.startswith(("/summary", "/delta"))
        if is_exchange:
            way.asked.append((self.command, self.path))
        fault = way.fault
        if way.port is None or fault == "away":
            self.close_connection = True
            return
        if fault == "hang":
            way.released.wait(HANGS)
            self.close_connection = True
            return
        if fault == "portal":
            self.answer(200, {"Content-Type": "text/html"}, PORTAL)
            return
        if is_exchange and isinstance(fault, int):
            self.answer(fault, {"Content-Type": "text/html"}, b"<h1>no</h1>")
            return
        if is_exchange and fault == "later":
            way.released.wait(HANGS)
        times = 2 if self.path == "/delta" and way.happens("double") else 1
        for _ in range(times):
            asked = http.client.HTTPConnection("localhost", way.port, timeout=300)
            heads = {name: self.headers[name] for name in ASKED if self.headers[name]}
            asked.request(self.command, self.path, body or None, heads)
            answer = asked.getresponse()
            made = answer.read()
            asked.close()
        if self.path == "/delta" and way.happens("lose"):
            self.close_connection = True
            return
        heads = {name: answer.headers[name] for name in PASSED if answer.headers[name]}
        self.answer(answer.status, heads, made)

    def answer(self, status, heads, body):
        self.send_response_only(status)
        for name, value in heads.items():
            self.send_header(name, value)
        if status != 304:
            self.send_header("Content-Length", str(len(body)))
        self.end_headers()
        if self.command != "HEAD" and status != 304:
            self.wfile.write(body)

    def log_message(self, *_):
        pass


class Between(http.server.ThreadingHTTPServer):
    daemon_threads = True

    def __init__(self):
        super().__init__(("localhost", 0), Way)
        self.port = None
        self.next = None
        self.fault = None
        self.seen = []
        self.asked = []
        self.released = threading.Event()
        self.address = f"http://localhost:{self.server_port}/"
        threading.Thread(target=self.serve_forever, daemon=True).start()

    def happens(self, what):
        if self.next != what:
            return False
        self.next = None
        self.seen.append(what)
        return True

    @contextlib.contextmanager
    def faulty(self, fault):
        """What is asked meets a fault: away, hang, portal, later, or a status."""
        self.fault = fault
        self.released.clear()
        try:
            yield
        finally:
            self.fault = None
            self.released.set()

    def handle_error(self, *_):
        pass
