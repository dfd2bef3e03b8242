"""Nothing jumps: what one is typing in, and what is beside it, stays where it is on the screen,
whatever comes, goes or is said meanwhile."""
import contextlib

from editor_page import CLOCK, DAY, DRAFTED, SHORT_MINUTE, Editor, expect, quoted

SIZES = ((360, 640), (768, 1024), (1200, 900))
LONG = "A text that is much longer than the one before, so that it takes more lines than that did, "
# What moved, as Chromium saw it; also what did within half a second of a key.
OBSERVED = (
    CLOCK % 0
    + ";"
    + SHORT_MINUTE
    + """;globalThis.shifts = [];
const seen = ({ node, previousRect: one, currentRect: other }) => {
  const it = node?.nodeType === 1 ? node : node?.parentElement;
  return { of: it?.closest('.row')?.label ?? null, top: one.top,
    what: `${it?.id || it?.className} from ${one.x},${one.y} to ${other.x},${other.y}` };
};
new PerformanceObserver((list) => {
  // (a notice of more lines than the last one begins higher)
  for (const it of list.getEntries())
    shifts.push(...it.sources.filter(({ node }) => node?.id !== 'notice').map(seen));
}).observe({ type: 'layout-shift', buffered: true });"""
)
# The page, once all of that is seen.
SETTLED = """(async () => {
  for (let at = 0; at < 3; at += 1) await new Promise((done) => requestAnimationFrame(done));
  await new Promise((done) => setTimeout(done, 30));
})()"""
# A browser that does not mind by itself what comes above.
NO_ANCHOR = """;{ const supports = CSS.supports.bind(CSS);
CSS.supports = (name, ...value) => name !== 'overflow-anchor' && supports(name, ...value); }"""
FOCUSED = "document.activeElement"
AROUND = "#bar > *, #actions *, #tools > *, #shown label, #shown b, #progress-text, #foot, #undo"
OVERLAPS = """(() => {
  const [one, other] = [document.activeElement, document.querySelector('#problem')]
    .map((it) => it.getBoundingClientRect());
  return one.top < other.bottom && other.top < one.bottom;
})()"""


class Still:
    """A page at one size and in one language, of which each step has to leave a field in place."""

    def __init__(self, room, editor, name):
        self.room, self.editor, self.name = room, editor, name

    def places(self, of):
        """Where a field is, and all that is above and below the list."""
        return self.editor.run(
            f"[{of}, ...document.querySelectorAll({quoted(AROUND)})]"
            ".map((it) => it.getBoundingClientRect()).map((it) => [it.left, it.width, it.top])"
        )

    def step(self, what, run, until=None, of=FOCUSED, is_taller=False):
        """Does something. Where what came `is_taller`, what is above the field may move, and other
        rows."""
        editor = self.editor
        editor.run(SETTLED)
        editor.run("shifts.length = 0")
        before = self.places(of)
        own = editor.run(f"{of}.closest('.row')?.label")
        run()
        if until:
            editor.page.until(until)
        editor.run(SETTLED)
        after = self.places(of)
        for at, (one, other) in enumerate(zip(before, after)):
            # (the head is scrolled away by what grows above a field)
            compared = 2 if at > 0 and is_taller else 3
            moved = max(abs(one[it] - other[it]) for it in range(compared))
            which = f"number {at} of {AROUND}" if at > 0 else "the field"
            expect(moved < 1, f"{self.name}: {what}: {which} moves from {one} to {other}")
        shifts = [
            it["what"]
            for it in editor.run("shifts")
            if not (is_taller and it["of"] and (it["of"] != own or it["top"] < before[0][2]))
        ]
        expect(not shifts, f"{self.name}: {what}: this moves: {'; '.join(shifts[:4])}")

    def exchange(self):
        self.editor.run("dispatchEvent(new Event('online'))")

    def came(self, what, *labels, until, of=FOCUSED, is_taller=True):
        """Labels of another come by an exchange."""

        def run():
            self.room.server.put(*labels)
            self.exchange()

        self.step(what, run, until, of, is_taller)

    def told(self, fault, meanwhile=lambda: None):
        """The exchange meets a fault, which goes again."""
        with contextlib.ExitStack() as stack:
            begin = lambda: (stack.enter_context(self.room.between.faulty(fault)), self.exchange())
            self.step(f"the server is {fault}", begin, "document.querySelector('#exchanged.due')")
            is_covered = self.editor.problem() and self.editor.run(OVERLAPS)
            expect(not is_covered, f"{self.name}: what is said of {fault} covers what is typed in")
            meanwhile()
            self.step(
                "the server is back", stack.close, "!document.querySelector('#exchanged.due')"
            )


def field(editor, name):
    return f"{editor.row(name)}.querySelector('textarea')"


def labels(language):
    """The messages that a day begins with."""
    made = [[f"m{at:02}", "en", [f"Short text {at:02} of {{name}}"]] for at in range(1, 12)]
    made += [[f"zfew.{at}", "en", [f"Few {at}"]] for at in range(1, 4)]
    made += [[name, language, [f"Texte {name} {{name}}"]] for name in ("m03", "m07", "m08")]
    made += [[f"m{at:02}", language, []] for at in (1, 2, 4, 5, 6, 9, 10, 11)]
    return [*made, ["m04", "x-note", []], *[[name, "en", []] for name in ("m00", "a", "b")]]


def typing(still, language):
    """What is said and what comes while one is at a field of the first rows."""
    editor = still.editor
    page = editor.page
    editor.go("m02")
    editor.run("scrollTo(0, 0)")
    for fault in ("away", 404, 500, "portal", 413, 401):
        still.told(fault)
    notice = f"document.querySelector('#notice').textContent = {quoted(9 * LONG)}"
    still.step("much is said", lambda: editor.run(notice))
    row = editor.row("m02")
    still.step("a letter is typed", lambda: page.type("T"), f"{row}.dataset.mark === 'isTyped'")
    still.step("the draft is kept", lambda: None, DRAFTED % quoted("T"))
    warning = f"{row}.querySelector('.warning').textContent"
    still.step("the placeholder is there", lambda: page.type(" {name}"), f"{warning} === ''")
    still.step("another one is not", lambda: page.type(" %d"), f"{warning} !== ''")
    others = f"{row}.querySelectorAll('.other').length === 1"
    still.came("the text changes", ["m02", language, ["Autre"]], until=others, is_taller=False)
    still.came(
        "it changes again",
        ["m02", language, [LONG]],
        until=f"{row}.querySelector('.other').textContent.includes('much')",
        is_taller=False,
    )
    editor.run(f"{row}.scrollIntoView({{ block: 'start' }})")
    still.step("Tab leaves it", lambda: page.key("Tab"), of=field(editor, "m03"), is_taller=True)
    expect(editor.run(f"{FOCUSED} === {field(editor, 'm03')}"), "Tab does not go on")
    editor.go("m02")
    page.key("Escape")
    hidden = "document.querySelector('#problem').hidden"
    still.step("the clock is wrong", lambda: turn(still, 10 * DAY), f"!{hidden}")
    still.step("it is right", lambda: turn(still, 0), hidden)


def turn(still, off):
    still.editor.run(f"setClock({off})")
    still.exchange()


def arriving(still, language):
    """What comes to rows above, and to the row that one is at."""
    editor = still.editor
    page = editor.page
    editor.go("m02")
    editor.run("scrollTo(0, 0)")
    source = lambda name: f"{editor.row(name)}.querySelector('.source').textContent"
    longer = lambda name: f"{source(name)}.includes('much')"
    still.came("a longer source above", ["m01", "en", [LONG]], until=longer("m01"))
    editor.run("scrollTo(0, 0)")
    still.came("a shorter one", ["m01", "en", ["S"]], until=f"{source('m01')} === 'S'")
    editor.go("m04")
    still.came("a longer source", ["m04", "en", [LONG]], until=longer("m04"))
    note = f"{editor.row('m04')}.querySelector('.note').textContent"
    still.came("a note", ["m04", "x-note", ["On the first page"]], until=f"{note} !== ''")
    before = editor.count("all")
    still.came("a message", ["m00", "en", ["More"]], until=f"{before} < 15", is_taller=False)
    editor.go("m07")
    still.came(
        "a newer source",
        ["m07", "en", ["Other text 07 of {name}"]],
        until=f"!{editor.row('m07')}.querySelector('.stillRight').hidden",
        is_taller=False,
    )
    editor.go("m05")
    page.type("Texte 05 {name}")
    kept = "document.querySelector('#notice').textContent.includes('m05')"
    still.step("Enter keeps it", lambda: page.key("Enter"), kept, of=field(editor, "m06"))
    still.step(
        "it is taken back",
        lambda: page.key("z", code="KeyZ", modifiers=2),
        f"{field(editor, 'm05')}.value === ''",
    )
    # the end of the list, with what is wrong above it
    editor.go("m11")
    still.told(413, lambda: editor.run("scrollTo(0, document.body.scrollHeight)"))
    # a list that is lower than the window
    editor.find("few")
    editor.go("zfew.3")
    still.came("a longer one of few", ["zfew.1", "en", [LONG]], until=longer("zfew.1"))
    editor.find("")


def in_dialogs(still):
    """What is wrong in a dialog, and what a reader gets."""
    editor = still.editor
    page = editor.page
    page.key("n", code="KeyN", modifiers=1)
    page.until("document.querySelector('#new-dialog').open")
    page.type("m01")
    page.key("Tab")
    page.type("x")
    still.step(
        "a name is refused",
        lambda: page.key("Enter"),
        "document.querySelector('#new-dialog .bad').textContent !== ''",
    )
    editor.run("document.querySelector('#new-dialog').close()")
    editor.click("#open-reader")
    editor.run("document.querySelector('#reader-field').select()")
    counts = "document.querySelector('#reader-counts').textContent"
    before = editor.run(counts)
    still.step("another reader", lambda: page.type("fr, ar"), f"{counts} !== {quoted(before)}")
    editor.run("document.querySelector('#reader-dialog').close()")


# The row in the middle of the window, and how far down it is.
MIDDLE = """(() => {
  const it = document.elementFromPoint(innerWidth / 4, innerHeight / 2).closest('.row');
  return [it.label, it.getBoundingClientRect().top];
})()"""


def in_long_list(room):
    """9. Nothing jumps in a long list, where rows that were never seen come."""
    for at in range(40):
        of = [f"{at:02}.{more}" for more in range(10)]
        room.server.put(*[[name, "en", [LONG * (at * at % 5)]] for name in of])
    for before in (OBSERVED, OBSERVED + NO_ANCHOR):
        editor = Editor(room.browser(), room.address, "long", before, 360, 640)
        editor.exchanged()
        editor.languages("en", "fr")
        if before != OBSERVED:
            editor.run("document.documentElement.style.overflowAnchor = 'none'")
        editor.run("scrollTo(0, document.body.scrollHeight / 2)")
        editor.run(SETTLED)
        for step in 4 * [300] + 12 * [-300]:
            name, top = editor.run(MIDDLE)
            editor.run(f"scrollBy(0, {step})")
            editor.run(SETTLED)
            now = editor.run(f"{editor.row(name)}.getBoundingClientRect().top")
            expect(abs(top - now - step) < 2, f"{name} moves by {top - now} and not by {step}")
    still = Still(room, editor, "a long list")
    name, _ = editor.run(MIDDLE)
    editor.run("document.activeElement.blur()")
    count = editor.count("all") + 30
    # (some of them are near the window, and higher than most)
    near = f"{name[:-1]}{chr(ord(name[-1]) - 1)}x"
    still.came(
        "many come above",
        *[[f"{of}{at}", "en", [5 * LONG]] for of in ("00.x", near) for at in range(15)],
        until=f"document.querySelector('#shown b').textContent === '{count}'",
        of=editor.row(name),
    )
    editor.go(name)
    # a keyboard on the screen
    before = still.places(FOCUSED)[0]
    editor.page.resize(360, 400)
    editor.run(SETTLED)
    now = still.places(FOCUSED)[0]
    expect(now == before, f"in a window that is lower a field is at {now}, and was at {before}")
    return [editor]


def nothing_jumps(room):
    """9. Nothing jumps: fields stay where they are, whatever comes and is said."""
    for width, height in SIZES:
        for language in ("en", "ar"):
            into = "ar" if language == "ar" else "fr"
            room.server.put(*labels(into))
            name = f"{language}-{width}"
            browser = room.browser(f"{language},en")
            editor = Editor(browser, room.address, name, OBSERVED, width, height)
            editor.page.resize(width, height, width < 700)
            editor.exchanged()
            editor.reload()
            editor.exchanged()
            shifts = editor.run("shifts.map(({ what }) => what)")
            expect(not shifts, f"{name}: as the page is opened this moves: {shifts[:4]}")
            editor.languages("en", into)
            still = Still(room, editor, f"{language}, {width} wide")
            typing(still, into)
            arriving(still, into)
            in_dialogs(still)
            expect(not editor.faults(), editor.faults())
            room.browsers.pop().kill()
    return []
