"""The promises of the editor, each tried as a person would find it broken."""
import json
import tempfile
import time

from editor_between import Between
from editor_page import CLOCK, DAY, Editor, Server, cells_of, chromium, equal, expect

HOSTILE = [
    "__proto__", "constructor", "toString", "hasOwnProperty", "valueOf", "prototype", "then",
    "<script>window.pwned=1</script>", "<img src=x onerror=window.pwned=1>", "\"'`",
    "' onclick='x", "../../summary", "a b", "\u202egnp.exe", "\u200b", "é" * 64, "x" * 128,
    "$&{name}", "&lt;b&gt;",
]
NO_LOCKS = "Object.defineProperty(Navigator.prototype, 'locks', { get: () => undefined });"
NO_STORE = "IDBFactory.prototype.open = () => { throw new DOMException('no', 'SecurityError'); };"
FULL = """(() => { const put = IDBObjectStore.prototype.put; globalThis.isFull = false;
  IDBObjectStore.prototype.put = function (...given) {
    if (globalThis.isFull) { this.transaction.abort(); return put.apply(this, given); }
    return put.apply(this, given); }; })()"""


class Room:
    """A server with what is between it and browsers, for one promise."""

    def __init__(self, package, stack):
        self.stack = stack
        self.folder = stack.enter_context(tempfile.TemporaryDirectory())
        self.between = Between()
        self.server = Server(self.between, f"{self.folder}/site.json", package)
        stack.callback(self.server.stop)
        self.browsers = []
        self.address = self.between.address

    def browser(self, language="en", **more):
        made = self.stack.enter_context(chromium.Browser(f"--accept-lang={language}", **more))
        self.browsers.append(made)
        return made

    def editor(self, name, language="en", **more):
        return Editor(self.browser(language), self.address, name, **more)


def any_id(room):
    """1. Any id is an id, and nothing of a document becomes markup or code."""
    texts = {name: f"text of {name}" for name in HOSTILE}
    room.server.put(*[[name, "en", [text]] for name, text in texts.items()])
    room.server.put(["__proto__", "de", ["<b onmouseover=window.pwned=1>x</b>"]])
    anna = room.editor("anna")
    anna.exchanged()
    anna.languages("en", "fr")
    equal(anna.count("all"), len(HOSTILE), "messages")
    equal(anna.count("missing"), len(HOSTILE), "messages that lack a text")
    expect(anna.count("outdated") == 0, "a message is to be looked at again without a text")
    anna.show("missing")
    for name in HOSTILE:
        anna.reach(name)
        found = anna.run(f"{anna.row(name)}.querySelector('.source').textContent")
        expect(found == texts[name], f"{name!r} is shown as {found!r}")
    for name in ("__proto__", "constructor", HOSTILE[7]):
        anna.write(name, f"fr {name}")
    anna.exchange()
    anna.click("#open-reader")
    anna.run("document.querySelector('#reader-dialog').close()")
    for name in ("__proto__", "constructor", HOSTILE[7]):
        room.server.has(name, "fr", [f"fr {name}"], f"{name!r} does not arrive")
    anna.reload()
    anna.page.until(anna.row("__proto__"))
    expect(anna.labels()[("__proto__", "fr")] == ["fr __proto__"], "it is not kept")
    markup = "document.querySelector('li script, li img, li b b')"
    expect(anna.run(f"window.pwned === undefined && {markup} === null"), "a text is markup")
    equal(anna.run("Object.keys(Object.prototype).length"), 0, "members that all objects have")
    _, heads, _ = room.server.ask("GET", "/")
    policy = heads["Content-Security-Policy"]
    for part in ("default-src", "frame-ancestors", "form-action", "base-uri"):
        expect(f"{part} 'none'" in policy, f"the policy has no {part}")
    is_strict = "unsafe-inline" not in policy and heads["X-Frame-Options"] == "DENY"
    expect(is_strict, "the policy lets more in")
    return [anna]


def no_edit_lost(room):
    """2. What is typed survives a reload, a closed tab and a crash; one tab edits."""
    profile = room.stack.enter_context(tempfile.TemporaryDirectory())
    room.server.put(["title", "en", ["Title"]], ["news", "en", ["News"]])
    with chromium.Browser("--accept-lang=en", profile=profile) as first:
        anna = Editor(first, room.address, "anna")
        anna.exchanged()
        anna.language("#language", "fr")
        for turn in range(6):
            anna.write("title", f"Titre {turn}")
            anna.reload()
            anna.until_text("title", f"Titre {turn}")
        anna.write("title", "Titre")
        anna.go("news")
        anna.page.type("Nouv")
        anna.reload()
        anna.until_text("news", "Nouv")
        expect(anna.count("typed") == 1, f"{anna.count('typed')} texts are said to be typed")
        expect(anna.text("title") == "Titre", "a reload loses an edit")
        # a second tab waits, and the first one is closed while something is typed
        second = first.page(room.address)
        second.until("document.body.textContent.includes('open in another tab')")
        expect(second.run("document.querySelector('#work').hidden"), "two tabs edit one site")
        anna.go("news")
        anna.page.type("Nouvelles")
        anna.page.close()
        anna.page = second
        anna.ready()
        anna.until_text("news", "Nouvelles")
        anna.go("news")
        anna.page.type("Nouvelles du jour")
        anna.until_drafted("Nouvelles du jour")
        anna.write("title", "Le titre")
        anna.kept()
        first.kill()
    with chromium.Browser("--accept-lang=en", profile=profile) as third:
        anna = Editor(third, room.address)
        anna.until_text("news", "Nouvelles du jour")
        expect(anna.text("title") == "Le titre", "a crash loses an edit")
        anna.go("news")
        anna.page.key("Enter")
        anna.exchange()
        room.server.has("news", "fr", ["Nouvelles du jour"], "it is not exchanged")
    # without locks, and without a store
    for before in (NO_LOCKS, NO_STORE):
        ben = Editor(room.browser(), room.address, before=before)
        ben.page.until("!document.querySelector('#problem').hidden")
        expect("keeps nothing" in ben.problem(), f"it is not said: {ben.problem()}")
        ben.give("#start .open-site", "ben.json", EMPTY.replace("NAME", "ben"))
        ben.page.until("document.querySelector('#work:not([hidden])')")
        ben.exchange()
        ben.languages("fr", "en")
        with room.between.faulty("away"):
            ben.write("title", f"Titel {len(before)}")
            expect("NOT KEPT" in ben.said("#kept"), f"it is not said: {ben.said('#kept')}")
        ben.exchange()
        expect("NOT KEPT" not in ben.said("#kept"), "what was exchanged is said not to be kept")
        label = [f"Titel {len(before)}"]
        room.server.has("title", "en", label, "an edit without a store is lost")
        room.browsers.pop().kill()
    # a full store
    carl = Editor(room.browser(), room.address, "carl", before=FULL)
    carl.exchanged()
    carl.run("isFull = true")
    carl.language("#language", "it")
    carl.write("title", "Titolo")
    carl.page.until("document.querySelector('#kept').textContent.includes('NOT KEPT')")
    carl.run("isFull = false")
    carl.write("news", "Notizie")
    carl.kept()
    carl.reload()
    carl.page.until(carl.row("news"))
    expect(carl.labels()[("title", "it")] == ["Titolo"], "an edit is lost after the store was full")
    return [carl]


EMPTY = '{"cells":[],"kind":"site","site":"NAME","version":2}'


def no_edit_undone(room):
    """3. No edit of another is undone unseen; CR LF is no edit."""
    room.server.put(
        ["items", "fr", ["un", "plusieurs"]],
        ["title", "fr", ["Titre"]],
        ["cr", "fr", ["un\r\ndeux"]],
        ["items", "en", ["one", "many"]],
        ["title", "en", ["Title"]],
    )
    anna, ben = room.editor("anna"), room.editor("ben")
    for editor in (anna, ben):
        editor.exchanged()
        editor.languages("en", "fr")
    # of a label of two texts each changes one
    anna.go("items")
    anna.page.type("un ANNA")
    ben.write("items", "plusieurs BEN", 1)
    ben.exchange()
    anna.exchange()
    anna.until_text("items", "plusieurs BEN", 1)
    expect(anna.text("items") == "un ANNA", "what was typed is gone")
    anna.go("items")
    anna.page.key("Enter")
    anna.exchange()
    room.server.has("items", "fr", ["un ANNA", "plusieurs BEN"], "an edit is undone")
    # both change one text
    anna.go("title")
    anna.page.type("Titre ANNA")
    ben.write("title", "Titre BEN")
    ben.exchange()
    anna.exchange()
    anna.page.until(f"{anna.row('title')}.querySelector('.other')")
    other = anna.seen("title", ".other")
    expect("Titre BEN" in other and "ben" in other, f"the other text is not shown: {other}")
    anna.run(f"{anna.row('title')}.querySelector('textarea').focus()")
    anna.page.key("Enter")
    anna.exchange()
    room.server.has("title", "fr", ["Titre BEN"], "the first Enter decides")
    anna.run(f"{anna.row('title')}.querySelector('textarea').focus()")
    anna.page.key("Enter")
    anna.exchange()
    room.server.has("title", "fr", ["Titre ANNA"], "the second Enter does not decide")
    # an undo takes back no edit of another
    ben.exchange()
    ben.write("title", "Titre de BEN")
    ben.exchange()
    anna.exchange()
    anna.click("#undo")
    anna.exchange()
    room.server.has("title", "fr", ["Titre de BEN"], "an undo takes back another's edit")
    # CR LF
    before = room.server.site()
    anna.go("cr")
    anna.page.key("Enter")
    anna.exchange()
    expect(room.server.site() == before, "Enter on a text with CR LF is an edit")
    return [anna, ben]


def is_of_now(at, before):
    """A time is within two minutes of those between one before it and now."""
    now = time.time() * 1000
    expect(before - 120000 < at < now + 120000, f"an edit has the time {at}, and now it is {now}")


def wrong_clocks(room):
    """4. A wrong clock does no harm."""
    room.server.put(["title", "en", ["Title"]], ["news", "en", ["News"]])
    for name, off, word in (
        ("ahead", 10 * DAY, "10 days ahead"),
        ("behind", -30 * DAY, "30 days behind"),
    ):
        editor = Editor(room.browser(), room.address, name, before=CLOCK % off)
        editor.exchanged()
        editor.page.until("!document.querySelector('#problem').hidden")
        expect(word in editor.problem(), f"of the clock it is said: {editor.problem()}")
        editor.language("#language", "fr")
        expect(editor.count("all") == 2, "nothing is received")
        before = time.time() * 1000
        editor.write("title", name)
        editor.exchanged()
        room.server.has("title", "fr", [name], "an edit does not arrive")
        is_of_now(room.server.time_of("title", "fr"), before)
    # a clock that is ahead while there is no server to compare it with
    carl = Editor(room.browser(), room.address, "carl")
    carl.exchanged()
    with room.between.faulty("away"):
        carl.page.ask("Page.addScriptToEvaluateOnNewDocument", source=CLOCK % (10 * DAY))
        carl.language("#language", "it")
        carl.reload()
        carl.page.until(carl.row("title"))
        carl.write("title", "Titolo")
        carl.kept()
    carl.run("setClock(0)")
    carl.reload()
    carl.page.until("!document.querySelector('#problem').hidden")
    expect("too far ahead: 1" in carl.problem(), f"of late edits it is said: {carl.problem()}")
    expect(("title", "it") not in room.server.labels(), "a late edit arrives")
    room.server.put(["news", "de", ["Neues"]])
    carl.exchange()
    came = carl.labels().get(("news", "de"))
    equal(came, ["Neues"], "nothing is received because of a late edit")
    carl.click("#problem span button")
    carl.opens("#files-dialog")
    before = time.time() * 1000
    carl.click("#begin-anew")
    carl.page.until("document.querySelector('#site-name').textContent === 'carl-2'")
    carl.exchanged()
    room.server.has("title", "it", ["Titolo"], "a site that began anew has lost a label")
    is_of_now(room.server.time_of("title", "it"), before)
    # a late row of another, which an editor leaves out and counts
    room.server.python(
        """
import sys, time, silkwaram
late = int(time.time() * 1000) + 20 * 86400000
with silkwaram.edit(sys.argv[1]) as site: site.put('late', 'en', 'x', now=late)
"""
    )
    carl.exchange()
    said = carl.said("#notice")
    expect("far ahead: 1" in said, f"of late labels it is said: {said}")
    expect(("late", "en") not in carl.labels(), "a late label is taken")
    return [carl]


def in_parallel(room):
    """Edits apart while the server is killed, an exchange that is lost and one that comes twice."""
    anna, badr = room.editor("anna"), room.editor("badr", "ar,en")
    equal(badr.run("document.documentElement.dir"), "rtl", "the page is not in the reader's language")
    for name in ("title", "greeting", "news", "search"):
        anna.add(name, f"{name} in English")
    anna.exchange()
    badr.exchange()
    badr.languages("en", "ar")
    room.server.stop(is_killed=True)
    anna.write("greeting", "Hello")
    badr.write("title", "الفهرس اليومي")
    badr.write("greeting", "صباح الخير")
    for editor in (anna, badr):
        editor.exchange()
        line = editor.run("document.querySelector('#exchanged').className")
        expect("due" in line, "it is not said that the server is away")
        before = editor.kept()
        editor.reload()
        editor.page.until(editor.row("title"))
        expect(editor.kept() == before, "a reload without a server loses an edit")
    room.between.next = "lose"
    room.server.start()
    anna.exchange()
    anna.exchange()
    room.between.next = "double"
    badr.exchange()
    anna.exchange()
    badr.exchange()
    equal(room.between.seen, ["lose", "double"], "the faults that came to be")
    sites = [cells_of(room.server.site()), *[json.loads(it.kept()) for it in (anna, badr)]]
    expect(
        sites[0] == sites[1] == sites[2],
        "the cells are not the same:\n" + "\n".join(json.dumps(it)[:900] for it in sites),
    )
    expect(anna.labels()[("greeting", "ar")] == ["صباح الخير"], "an edit is lost")
    return [anna, badr]
