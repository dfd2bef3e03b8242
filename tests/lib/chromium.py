"""Drives a headless Chromium by its DevTools protocol, over a pair of pipes, so nothing but Chromium is needed."""
import base64
import contextlib
import functools
import http.server
import itertools
import json
import os
import select
import shutil
import subprocess
import tempfile
import threading
import time

NAMES = ("chromium", "chromium-browser", "google-chrome")
FLAGS = ["--headless=new", "--disable-gpu", "--no-first-run", "--disable-dev-shm-usage", "--mute-audio",
         "--disable-background-networking", "--disable-component-update", "--disable-default-apps",
         "--disable-extensions", "--disable-sync", "--no-proxy-server", "--hide-scrollbars"]
# (the end of a hang alone)
MOST_SECONDS = 300
# The pipes as the browser finds them: it reads from 3 and writes to 4.
START = 'exec "$@" 3<&"$READS" 4>&"$WRITES"'


class Failed(Exception):
    """What the browser, or a page in it, says that went wrong."""


def program():
    """Returns the browser's program, or None."""
    return os.environ.get("CHROMIUM") or next(filter(shutil.which, NAMES), None)


class Browser:
    """A browser with a profile of its own, which ends with the `with` block."""

    def __init__(self, *flags, profile=None):
        """A profile that is given is not taken away at the end."""
        self.flags = flags
        self.given = profile
        self.numbers = itertools.count(1)
        self.rest = b""
        self.answers = {}
        self.events = []

    def __enter__(self):
        self.profile = self.given or tempfile.mkdtemp(prefix="silkwaram-browser-")
        reads, self.writes = os.pipe()
        self.reads, writes = os.pipe()
        words = ["bash", "-c", START, "bash", program(), *FLAGS, f"--user-data-dir={self.profile}",
                 "--remote-debugging-pipe", *self.flags, "about:blank"]
        if os.geteuid() == 0:
            words.insert(-1, "--no-sandbox")
        with open(f"{self.profile}/said", "wb") as said:
            self.process = subprocess.Popen(
                words, stdin=subprocess.DEVNULL, stdout=said, stderr=said, pass_fds=(reads, writes),
                env={**os.environ, "READS": str(reads), "WRITES": str(writes)})
        os.close(reads)
        os.close(writes)
        return self

    def __exit__(self, *_):
        with contextlib.suppress(Failed, OSError):
            self.ask("Browser.close")
        with contextlib.suppress(subprocess.TimeoutExpired):
            self.process.wait(60)
        if self.process.poll() is None:
            self.process.kill()
            self.process.wait()
        os.close(self.reads)
        os.close(self.writes)
        if not self.given:
            shutil.rmtree(self.profile, ignore_errors=True)

    def kill(self):
        """Ends it as a crash does."""
        self.process.kill()
        self.process.wait()

    def said(self):
        with open(f"{self.profile}/said", encoding="utf-8", errors="replace") as file:
            return file.read()[-1500:]

    def receive(self, until):
        """Takes messages until one has come that `until` finds, or the time is over."""
        end = time.monotonic() + MOST_SECONDS
        while not until():
            if not select.select([self.reads], [], [], max(0, end - time.monotonic()))[0]:
                raise Failed(f"Chromium does not answer: {self.said()}")
            more = os.read(self.reads, 1 << 20)
            if not more:
                raise Failed(f"Chromium has ended: {self.said()}")
            *whole, self.rest = (self.rest + more).split(b"\0")
            for text in whole:
                message = json.loads(text)
                if "id" in message:
                    self.answers[message["id"]] = message
                else:
                    self.events.append(message)
                    if message["method"] == "Page.javascriptDialogOpening":
                        self.send("Page.handleJavaScriptDialog", message["sessionId"], accept=True)

    def send(self, method, session=None, **parameters):
        """Sends a command, and returns its number."""
        number = next(self.numbers)
        message = {"id": number, "method": method, "params": parameters}
        if session:
            message["sessionId"] = session
        os.write(self.writes, json.dumps(message).encode() + b"\0")
        return number

    def ask(self, method, session=None, **parameters):
        number = self.send(method, session, **parameters)
        self.receive(lambda: number in self.answers)
        answer = self.answers.pop(number)
        if "error" in answer:
            raise Failed(f"{method}: {answer['error']['message']}")
        return answer["result"]

    def page(self, url, width=1000, height=800, before=None):
        """Opens a page in a tab of its own; `before` is code that runs in it before its own."""
        target = self.ask("Target.createTarget", url="about:blank")["targetId"]
        session = self.ask("Target.attachToTarget", targetId=target, flatten=True)["sessionId"]
        page = Page(self, target, session)
        for domain in ("Page", "Runtime", "Network", "Accessibility"):
            page.ask(f"{domain}.enable")
        if before:
            page.ask("Page.addScriptToEvaluateOnNewDocument", source=before)
        page.resize(width, height)
        page.go(url)
        return page


class Page:
    def __init__(self, browser, target, session):
        self.browser, self.target, self.session = browser, target, session

    def ask(self, method, **parameters):
        return self.browser.ask(method, self.session, **parameters)

    def go(self, url):
        answer = self.ask("Page.navigate", url=url)
        if answer.get("errorText"):
            raise Failed(f"{url}: {answer['errorText']}")
        self.until("document.readyState === 'complete'")

    def close(self):
        self.browser.ask("Target.closeTarget", targetId=self.target)

    def reload(self):
        self.run("window.isOld = true")
        self.ask("Page.reload")
        self.until("!window.isOld && document.readyState === 'complete'")

    def resize(self, width, height, is_mobile=False):
        self.ask("Emulation.setDeviceMetricsOverride", width=width, height=height, deviceScaleFactor=1,
                 mobile=is_mobile)

    def run(self, code):
        """Evaluates code in the page, waits for its promise, and returns its value."""
        answer = self.ask("Runtime.evaluate", expression=code, awaitPromise=True, returnByValue=True,
                          userGesture=True)
        if "exceptionDetails" in answer:
            fault = answer["exceptionDetails"]
            raise Failed(fault.get("exception", {}).get("description") or fault["text"])
        return answer["result"].get("value")

    def until(self, code):
        """Waits until an expression is true in the page, or is a promise of what is."""
        end = time.monotonic() + MOST_SECONDS
        while True:
            with contextlib.suppress(Failed):   # (a page that is being left has no state)
                if self.run(f"(async () => !!(await ({code})))()"):
                    return
            if time.monotonic() > end:
                raise Failed(f"this did not come to be in {MOST_SECONDS} seconds: {code}")
            time.sleep(0.05)

    def key(self, key, code=None, modifiers=0, text=None):
        """Presses and lets go a key; `modifiers` is the sum of 1 Alt, 2 Control, 4 Meta, 8 Shift."""
        named = {"key": key, "code": code or key, "modifiers": modifiers}
        number = {"Enter": 13, "Tab": 9, "Escape": 27, "ArrowDown": 40, "ArrowUp": 38, "Delete": 46,
                  " ": 32}.get(key)
        if number:
            named["windowsVirtualKeyCode"] = number
        if key == "Enter" and text is None:
            text = "\r"
        self.ask("Input.dispatchKeyEvent", type="keyDown" if text else "rawKeyDown", **named,
                 **({"text": text} if text else {}))
        self.ask("Input.dispatchKeyEvent", type="keyUp", **named)

    def type(self, text):
        self.ask("Input.insertText", text=text)

    def picture(self, path):
        taken = self.ask("Page.captureScreenshot", format="png")
        with open(path, "wb") as file:
            file.write(base64.b64decode(taken["data"]))


class Files(http.server.SimpleHTTPRequestHandler):
    """Serves a folder, and nothing is said of it."""
    extensions_map = {**http.server.SimpleHTTPRequestHandler.extensions_map, ".mjs": "text/javascript",
                      ".wasm": "application/wasm"}

    def log_message(self, *_):
        pass


@contextlib.contextmanager
def served(folder):
    """The address of a server of a folder, on this machine alone."""
    server = http.server.ThreadingHTTPServer(("127.0.0.1", 0), functools.partial(Files, directory=folder))
    threading.Thread(target=server.serve_forever, daemon=True).start()
    try:
        yield f"http://127.0.0.1:{server.server_port}"
    finally:
        server.shutdown()
        server.server_close()
