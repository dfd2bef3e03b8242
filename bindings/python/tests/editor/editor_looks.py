"""How the editor looks in each state, and its work by keys."""
import base64
import contextlib

from editor_page import PACKAGE, Editor, chromium, equal, expect, quoted, tap
from editor_promises import Room
from editor_more import TITLES

# Elements with text that is cut, or wider than the page; and text of too little contrast.
SEEN = """(() => {
  const faults = [];
  const rgb = (color) => color.match(/[\\d.]+/g).map(Number);
  const light = ([r, g, b]) => [r, g, b].map((it) => it / 255)
    .map((it) => it <= 0.03928 ? it / 12.92 : ((it + 0.055) / 1.055) ** 2.4)
    .reduce((sum, it, at) => sum + it * [0.2126, 0.7152, 0.0722][at], 0);
  const ground = (element) => {
    for (let it = element; it; it = it.parentElement) {
      const color = rgb(getComputedStyle(it).backgroundColor);
      if (color.length < 4 || color[3] > 0) return color;
    }
    return [255, 255, 255];
  };
  if (document.documentElement.scrollWidth > innerWidth) faults.push('wider than the window');
  const left = '.away, .skip, option, datalist, progress, .aside';
  for (const element of document.body.querySelectorAll('*')) {
    const isInput = /^(INPUT|TEXTAREA|SELECT)$/.test(element.tagName);
    const nodes = [...element.childNodes];
    const hasText = isInput || nodes.some((it) => it.nodeType === 3 && it.data.trim());
    const box = element.getBoundingClientRect();
    if (!hasText || !element.checkVisibility() || element.closest(left)) continue;
    if (box.width <= 1 || element.type === 'file' || element.type === 'radio') continue;
    const text = (element.value ?? element.textContent).slice(0, 40);
    const name = `${element.tagName} ${element.id} "${text}"`;
    const style = getComputedStyle(element);
    const isLow = element.scrollHeight > element.clientHeight + 2;
    const isNarrow = element.scrollWidth > element.clientWidth + 2;
    if (element.tagName === 'TEXTAREA' && isLow) faults.push(`cut: ${name}`);
    if (style.display !== 'inline' && !isInput && isNarrow) faults.push(`cut: ${name}`);
    // (the kinds of messages are a line that is moved sideways)
    const isOut = box.left < -1 || box.right > innerWidth + 1;
    const isBeside = isOut && !element.closest('.tabs');
    if (box.width && isBeside) faults.push(`beside the window: ${name}`);
    const [one, other] = [light(rgb(style.color)), light(ground(element))].sort((a, b) => b - a);
    const isFaint = (one + 0.05) / (other + 0.05) < 4.5 && !element.disabled;
    if (isFaint) faults.push(`too little contrast: ${name}`);
  }
  return faults;
})()"""

# What is said of the exchange and of what is kept, in all languages, that is longer than its line.
CUT = """(async () => {
  const { WORDS, wordsOf } = await import('./words.mjs');
  const line = document.querySelector('#exchanged');
  const shown = line.textContent;
  const cut = Object.keys(WORDS).flatMap((language) => {
    const say = wordsOf(language);
    const faults = Object.keys(WORDS[language]).filter((it) => it.startsWith('short_'));
    const kept = ['kept', 'keeping', 'notKeptHere', 'noStore', 'notInStore'];
    const unsent = say('unsent', { count: 1234 });
    const lines = [...faults.map((it) => `${say(it)} ${unsent}`), ...kept.map((it) => say(it))];
    return lines.filter((text) => {
      line.textContent = text;
      return line.scrollWidth > line.clientWidth;
    });
  });
  line.textContent = shown;
  return cut;
})()"""

ARABIC = {
    "title": "الفهرس اليومي",
    "greeting": "صباح الخير يا {name}",
    "news": "أُعيد فتح الميناء.",
}


def states(room):
    """Brings a page into each state that a person sees, and gives its name with the editor."""
    anna = Editor(room.browser(), room.address)
    anna.page.until("document.activeElement.name === 'name'")
    yield "start", anna
    anna.page.type("anna")
    anna.page.key("Enter")
    anna.exchanged()
    yield "empty", anna
    room.server.put(
        *[[name, "en", [text]] for name, text in TITLES.items()],
        *[[name, "ar", [text]] for name, text in ARABIC.items()],
        ["greeting", "x-note", ["On the first page"]],
    )
    anna.exchange()
    anna.languages("en", "ar")
    anna.choose("#page-language", "en")
    anna.go("search")
    yield "work", anna
    anna.show("missing")
    yield "missing", anna
    room.server.put(["title", "en", ["The Daily Catalogue, second edition"]])
    anna.exchange()
    anna.show("outdated")
    yield "outdated", anna
    anna.show("all")
    anna.go("news")
    anna.page.type("أُعيد فتح الميناء اليوم.")
    room.server.put(["news", "ar", ["أُعيد فتح الميناء، وتغادر العبّارات من الرصيف الجديد."]])
    anna.exchange()
    anna.page.until(f"{anna.row('news')}.querySelector('.other')")
    anna.go("news")
    yield "conflict", anna
    anna.page.key("Escape")
    with room.between.faulty("away"):
        anna.write("weather", "مطر حتى الخميس.")
        anna.exchange()
        anna.click("#close-problem")
        yield "offline", anna
    with room.between.faulty(413):
        anna.exchange()
        yield "error", anna
    anna.exchange()
    anna.click("#open-files")
    yield "files", anna
    anna.run("document.querySelector('#files-dialog').close()")
    anna.click("#open-reader")
    yield "readers", anna
    anna.run("document.querySelector('#reader-dialog').close()")


def settled(editor):
    editor.run("new Promise((done) => requestAnimationFrame(() => requestAnimationFrame(done)))")


def page_language(editor, language):
    """Chooses the language of the page, without the focus."""
    editor.run(
        f"(() => {{ const it = document.querySelector('#page-language');"
        f" it.value = {quoted(language)}; it.dispatchEvent(new Event('change')); }})()"
    )


def scheme(editor, name):
    features = [{"name": "prefers-color-scheme", "value": name}]
    editor.page.ask("Emulation.setEmulatedMedia", features=features)


SIZES = ((320, 568), (360, 640), (768, 1024), (1000, 620), (1200, 900), (1600, 900))


def looks(room):
    """9. It looks like a tool that one likes: widths, contrast, names."""
    seen = 0
    for name, anna in states(room):
        for language in ("en", "ar") if name != "work" else ("ja", "fr", "ar", "en"):
            page_language(anna, language)
            direction = "rtl" if language == "ar" else "ltr"
            equal(anna.run("document.documentElement.dir"), direction, f"{language} is written")
            for ground in ("light", "dark"):
                scheme(anna, ground)
                for width, height in SIZES:
                    anna.page.resize(width, height, width < 700)
                    anna.run("scrollTo(0, 0)")
                    settled(anna)
                    faults = anna.run(SEEN)
                    where = f"{name}, {language}, {ground}, {width} wide"
                    expect(not faults, f"{where}: {'; '.join(faults[:6])}")
                    seen += 1
                    if name != "work":
                        continue
                    cut = anna.run(CUT)
                    expect(not cut, f"{where}: these are cut: {cut}")
                    field = "document.querySelector('.row textarea')"
                    bottom = anna.run(f"{field}.getBoundingClientRect().bottom")
                    expect(bottom < height - 52, f"{where}: the first text ends at {bottom}")
        page_language(anna, "en")
        scheme(anna, "light")
        anna.page.resize(1200, 900)
        settled(anna)
        nodes = anna.page.ask("Accessibility.getFullAXTree")["nodes"]
        found = [it for it in nodes if not it.get("ignored") and it["role"]["value"] in ROLES]
        bare = [
            it["role"]["value"] for it in found if not it.get("name", {}).get("value", "").strip()
        ]
        expect(found and not bare, f"{name}: of {len(found)} controls these have no name: {bare}")
        if name == "work":
            fields = [it for it in found if it["role"]["value"] == "textbox"]
            heard = [it.get("description", {}).get("value", "") for it in fields]
            is_named = any(TITLES["search"] in it for it in heard)
            expect(is_named, "a field does not name its source to who hears the page")
    tap.note(f"{seen} looks at pages")
    return [anna]


ROLES = (
    "button textbox searchbox combobox checkbox radio link progressbar progressIndicator dialog"
).split()


def take_pictures(folder):
    """Leaves a picture of each state in a folder, and of some of them small, dark and in Arabic."""
    with contextlib.ExitStack() as stack:
        room = Room(PACKAGE, stack)

        def take(editor, name):
            settled(editor)
            taken = editor.page.ask("Page.captureScreenshot", format="webp", quality=70)
            with open(f"{folder}/editor-{name}.webp", "wb") as file:
                file.write(base64.b64decode(taken["data"]))

        for name, anna in states(room):
            anna.page.resize(1000, 620)
            if name in ("offline", "error"):
                anna.run("scrollTo(0, 0)")
            take(anna, name)
            if name == "work":
                scheme(anna, "dark")
                take(anna, "dark")
                scheme(anna, "light")
                anna.choose("#page-language", "ar")
                anna.go("search")
                take(anna, "ar")
                anna.choose("#page-language", "en")
                anna.page.resize(360, 640, True)
                anna.run("scrollTo(0, 0)")
                take(anna, "phone")
                anna.page.resize(1000, 620)
                anna.go("search")


def by_keys(room):
    """The whole day by keys: add, translate, find, undo, exchange, without a pointer."""
    room.server.put(*[[name, "en", [text]] for name, text in list(TITLES.items())[:4]])
    anna = room.editor("anna")
    anna.exchanged()
    page = anna.page

    def tab_to(what, most=40):
        for _ in range(most):
            if anna.run(f"document.activeElement.matches({quoted(what)})"):
                return
            page.key("Tab")
        raise chromium.Failed(f"Tab does not reach {what}")

    anna.run("document.activeElement.blur()")
    tab_to("#language")
    for _ in range(2):  # "Another ..", the last option
        page.key("ArrowDown")
    page.until("document.querySelector('#language-dialog').open")
    page.type("French")
    page.key("Enter")
    page.until("document.querySelector('#language').value === 'fr'")
    tab_to(".row textarea")
    seen = []
    for text in ("Un", "Deux", "Trois", "Quatre"):
        seen.append(anna.focused())
        page.type(text)
        page.key("Enter")
    expect(len(set(seen)) == 4, f"Enter does not go to the next: {seen}")
    expect(anna.count("missing") == 0, "not all is translated")
    # Tab goes from text to text, past what would delete
    anna.go(seen[0])
    page.key("Tab")
    equal(anna.focused(), seen[1], "Tab stops between two texts")
    page.key("ArrowUp", modifiers=1)
    equal(anna.focused(), seen[0], "Alt with an arrow does not go up")
    page.type("not to be kept")
    page.key("Escape")
    expect(anna.text(seen[0]) == "Un", "Escape does not take back what was typed")
    page.key("Delete", modifiers=1)
    expect(anna.count("missing") == 1, "a text is not deleted by keys")
    page.key("z", code="KeyZ", modifiers=2)
    expect(anna.count("missing") == 0, "a deletion is not taken back by keys")
    page.key("n", code="KeyN", modifiers=1)
    page.until("document.querySelector('#new-dialog').open")
    page.type("footer")
    page.key("Tab")
    page.type("The end")
    page.key("Enter")
    page.until("document.activeElement.closest('.row')")
    anna.run("document.activeElement.blur()")
    page.key("/", code="Slash")
    expect(anna.run("document.activeElement.id") == "find", "/ does not find")
    page.type("foot")
    expect(anna.listed() == ["footer"], "what is looked for is not found")
    tab_to(".row textarea")
    page.type("Fin")
    page.key("Enter")
    anna.exchanged()
    room.server.has("footer", "fr", ["Fin"], "the work does not arrive")
    return [anna]
