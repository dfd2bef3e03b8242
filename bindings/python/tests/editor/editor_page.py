"""The editor's page and its server as the tests use them: a server that can be stopped, what is
between it and the browsers, and a page with what a person does there."""
import http.client
import json
import os
import subprocess
import sys

sys.dont_write_bytecode = True
SOURCES = os.path.realpath(f"{os.path.dirname(os.path.realpath(__file__))}/../../../..")
sys.path.insert(0, f"{SOURCES}/tests/lib")
import chromium  # noqa: E402
import tap  # noqa: E402, F401

PACKAGE = f"{SOURCES}/bindings/python/src"
LIBRARY = os.path.abspath(
    os.environ.get("SILKWARAM_LIBRARY", f"{SOURCES}/build/lib/libsilkwaram.so")
)
# A clock that is some milliseconds off, and a minute that takes less of one.
CLOCK = """(() => { const now = Date.now.bind(Date); let off = Number(sessionStorage.clock ?? %d);
  globalThis.setClock = (it) => { sessionStorage.clock = it; off = it; };
  Date.now = () => now() + off; })()"""
SHORT_MINUTE = """(() => { const set = setTimeout; globalThis.setTimeout = (run, wait, ...more) =>
  set(run, wait >= 10000 ? wait / 60 : wait, ...more); })()"""
DAY = 24 * 60 * 60 * 1000


def fail(what):
    raise chromium.Failed(what)


def expect(is_so, what):
    if not is_so:
        fail(what)


def equal(found, wanted, what):
    expect(found == wanted, f"{what}: {found!r}, not {wanted!r}")


class Server:
    """The editor's server over a file, which can be stopped and started again, also by another
    Python."""

    def __init__(self, between, file, package=PACKAGE, *words):
        self.between, self.file, self.words, self.package = between, file, words, package
        self.program = sys.executable
        self.environment = {
            **os.environ,
            "SILKWARAM_LIBRARY": LIBRARY,
            "PYTHONPATH": package,
            "PYTHONDONTWRITEBYTECODE": "1",
            "SILKWARAM_BROWSER": f"{SOURCES}/build/browser",
        }
        self.start()

    def start(self):
        words = [self.program, "-m", "silkwaram.editor", "--port", "0", *self.words, self.file]
        self.process = subprocess.Popen(
            words, stdout=subprocess.PIPE, text=True, env=self.environment, cwd="/"
        )
        address = self.process.stdout.readline()
        expect(address, "the server does not start")
        self.port = int(address.strip().strip("/").rpartition(":")[2])
        self.between.port = self.port

    def stop(self, is_killed=False):
        self.between.port = None
        self.process.kill() if is_killed else self.process.terminate()
        self.process.wait()
        self.process.stdout.close()

    def python(self, code, *words):
        """Runs code over the package, with the site's file as its first word."""
        done = subprocess.run(
            [sys.executable, "-c", code, self.file, *words],
            env=self.environment,
            capture_output=True,
            text=True,
        )
        expect(done.returncode == 0, f"code over the package: {done.stderr[-600:]}")
        return done.stdout

    def put(self, *labels):
        """Puts labels into the site's file, each a message, a language and its texts."""
        self.python(
            """
import json, sys, silkwaram
with silkwaram.edit(sys.argv[1], create='server') as site:
    for id, lang, texts in json.loads(sys.argv[2]):
        if len(texts) == 0: site.delete(id, lang)
        elif len(texts) == 1: site.put(id, lang, texts[0])
        else: site.import_maps({id: {lang: texts}})
""",
            json.dumps(labels),
        )

    def site(self):
        with open(self.file, encoding="utf-8") as file:
            return file.read()

    def labels(self):
        return {
            (name, tag): texts for name, tag, *_, texts in json.loads(self.site())["cells"] if texts
        }

    def has(self, name, tag, texts, what):
        """Sees that a label has these texts; if not, `what` is wrong."""
        equal(self.labels().get((name, tag)), texts, what)

    def time_of(self, name, tag):
        return next(cell[2] for cell in json.loads(self.site())["cells"] if cell[:2] == [name, tag])

    def ask(self, method, path, body=None, **heads):
        asked = http.client.HTTPConnection("localhost", self.port, timeout=300)
        names = {name.replace("_", "-"): value for name, value in heads.items()}
        if body is not None and "Content-Type" not in names:
            names["Content-Type"] = "application/json"
        asked.request(method, path, body, names)
        answer = asked.getresponse()
        return answer.status, answer.headers, answer.read()


def quoted(text):
    return json.dumps(text)


class Editor:
    """The page in a browser, and what a person does there."""

    def __init__(self, browser, address, name=None, before=None, width=1200, height=900):
        self.page = browser.page(address, width, height, before)
        self.ready()
        if name is not None:
            self.page.until("document.activeElement.name === 'name'")
            self.page.type(name)
            self.page.key("Enter")
            self.page.until("document.querySelector('#work:not([hidden])')")
            self.kept()
        # (the page is kept for use without a network)
        self.page.until("navigator.serviceWorker.controller !== null")

    def ready(self):
        self.page.until("document.querySelector('#start:not([hidden]), #work:not([hidden])')")

    # What is there.

    def run(self, code):
        return self.page.run(code)

    def said(self, of):
        return self.run(f"document.querySelector({quoted(of)})?.textContent.trim()")

    def problem(self):
        return self.run(
            "(() => { const it = document.querySelector('#problem');"
            " return it.hidden ? '' : it.firstElementChild.textContent; })()"
        )

    def seen(self, name, of):
        """The text of a part of a message's row."""
        return self.run(f"{self.row(name)}.querySelector({quoted(of)}).textContent")

    def focused(self):
        """The message whose row has the focus."""
        return self.run("document.activeElement.closest('.row')?.label")

    def row(self, name):
        return f"[...document.querySelectorAll('.row')].find((it) => it.label === {quoted(name)})"

    def listed(self):
        return self.run("[...document.querySelectorAll('.row')].map((it) => it.label)")

    def text(self, name, place=0):
        return self.run(f"{self.row(name)}.querySelectorAll('textarea')[{place}].value")

    def count(self, kind):
        number = self.run(
            f"document.querySelector('#shown input[value={kind}]').parentElement"
            ".querySelector('b').textContent"
        )
        return int(number.translate(str.maketrans("٠١٢٣٤٥٦٧٨٩", "0123456789")))

    def until_text(self, name, text, place=0):
        self.page.until(
            f"{self.row(name)}?.querySelectorAll('textarea')[{place}]?.value === {quoted(text)}"
        )

    def kept(self):
        """Waits until the page says that all is kept, and returns the cells that a page which is
        opened anew would have."""
        self.page.until(
            "document.querySelector('#kept').textContent"
            ".match(/^(All edits are kept|كل التعديلات)/)"
        )
        return self.run(CELLS)

    def labels(self):
        return {(name, tag): texts for name, tag, *_, texts in json.loads(self.kept()) if texts}

    def until_drafted(self, text):
        """Waits until what is typed is kept."""
        self.page.until(DRAFTED % quoted(text))

    def opens(self, dialog):
        self.page.until(f"document.querySelector({quoted(dialog)}).open")

    def closes(self, dialog):
        self.page.until(f"!document.querySelector({quoted(dialog)}).open")

    # What is done.

    def click(self, of):
        self.run(f"document.querySelector({quoted(of)}).click()")

    def find(self, text):
        self.run(
            f"(() => {{ const it = document.querySelector('#find'); it.value = {quoted(text)};"
            " it.dispatchEvent(new Event('input')); })()"
        )

    def choose(self, box, value):
        self.run(
            f"""(() => {{ const it = document.querySelector({quoted(box)}); it.focus();
            it.value = {quoted(value)};
            it.dispatchEvent(new Event('change', {{ bubbles: true }})); }})()"""
        )

    def language(self, box, tag):
        """Chooses a language, also one that the site does not have yet."""
        options = f"[...document.querySelector({quoted(box)}).options]"
        has = f"{options}.some((it) => it.value === {quoted(tag)})"
        if self.run(has):
            self.choose(box, tag)
            return
        self.choose(box, "..")
        self.opens("#language-dialog")
        self.page.type(tag)
        self.page.key("Enter")
        self.closes("#language-dialog")

    def languages(self, source, into):
        self.language("#source", source)
        self.language("#language", into)

    def show(self, kind):
        self.click(f"#shown input[value={kind}]")

    def add(self, name, text):
        self.click("#open-new")
        self.page.until("document.activeElement.name === 'id'")
        self.page.type(name)
        self.run("document.querySelector('#new-dialog [name=text]').focus()")
        self.page.type(text)
        self.page.key("Enter")
        self.closes("#new-dialog")
        self.page.until(self.row(name))

    def reach(self, name):
        """Scrolls until a message is in the page, as the list has those near the window alone."""
        self.run(
            f"""(async () => {{
          const step = innerHeight / 2;
          for (let at = 0; at <= document.body.scrollHeight && !({self.row(name)}); at += step) {{
            scrollTo(0, at);
            await new Promise((done) => requestAnimationFrame(() => requestAnimationFrame(done)));
          }} }})()"""
        )
        self.page.until(self.row(name))

    def go(self, name, place=0):
        if not self.run(f"!!({self.row(name)})"):
            self.reach(name)
        self.run(
            f"(() => {{ const it = {self.row(name)}.querySelectorAll('textarea')[{place}];"
            " it.focus(); it.select(); })()"
        )

    def write(self, name, text, place=0):
        self.go(name, place)
        self.page.type(text)
        self.page.key("Enter")

    def press(self, name, word):
        self.run(f"{self.row(name)}.querySelector('.{word}').click()")

    def exchange(self):
        """Exchanges, once what runs has ended. (From then on the button is disabled.)"""
        self.page.until(
            "(() => { const it = document.querySelector('#exchange'); if (it.disabled) return false;"
            " it.click(); return true; })()"
        )
        self.page.until("!document.querySelector('#exchange').disabled")

    def exchanged(self):
        """Waits until all is exchanged, without asking for it."""
        self.page.until(
            "document.querySelector('#exchanged').textContent.match(/^(Exchanged:|آخر تبادل)/)"
        )

    def reload(self):
        self.page.reload()
        self.ready()

    def give(self, box, name, text):
        """Chooses a file in a box, as a person would."""
        self.run(
            f"""(() => {{ const it = document.querySelector({quoted(box)});
            const made = new DataTransfer();
            made.items.add(new File([{quoted(text)}], {quoted(name)})); it.files = made.files;
            it.dispatchEvent(new Event('change')); }})()"""
        )

    def answer(self, word):
        """Chooses in the dialog that asks what to do."""
        self.opens("#ask-dialog")
        self.click(f"#ask-dialog button[value={word}]")

    def faults(self):
        thrown = [
            it for it in self.page.browser.events if it["method"] == "Runtime.exceptionThrown"
        ]
        return json.dumps(thrown[:1])[:900] if thrown else ""


# The cells of the document that is kept, with the edits since it was written.
CELLS = """(async () => {
  const done = (it) => new Promise((yes, no) => {
    it.onsuccess = () => yes(it.result);
    it.onerror = () => no(it.error);
  });
  const key = (it) => JSON.stringify(it.slice(0, 2));
  const base = await done(indexedDB.open('silkwaram-labels'));
  const reading = base.transaction(['kept', 'edits']);
  const [site, edits] = await Promise.all([
    done(reading.objectStore('kept').get('site')), done(reading.objectStore('edits').getAll())]);
  base.close();
  const cells = new Map();
  for (const it of JSON.parse(new TextDecoder().decode(site)).cells) cells.set(key(it), it);
  for (const it of edits.map((row) => JSON.parse(row))) cells.set(key(it), it);
  return JSON.stringify([...cells].sort(([a], [b]) => a < b ? -1 : 1).map(([, it]) => it));
})()"""


# Whether a text that is typed is kept.
DRAFTED = """(async () => {
  const done = (it) => new Promise((yes) => { it.onsuccess = () => yes(it.result); });
  const base = await done(indexedDB.open('silkwaram-labels'));
  const kept = await done(base.transaction('drafts').objectStore('drafts').getAll());
  base.close();
  return kept.some((it) => it.text === %s);
})()"""


def cells_of(document):
    """The cells of a document, in the order that `CELLS` has."""
    found = json.loads(document)["cells"]
    key = lambda it: json.dumps(it[:2], ensure_ascii=False, separators=(",", ":"))
    return sorted(found, key=key)
