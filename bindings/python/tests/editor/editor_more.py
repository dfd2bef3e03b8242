"""More promises of the editor: work that is seen, languages, exchanges by themselves, many
messages."""
from editor_page import SHORT_MINUTE, Editor, equal, expect, quoted, tap
from editor_promises import EMPTY

# What the line of the exchange says once none runs.
OUTCOME = """(async () => {
  const line = document.querySelector('#exchanged');
  while (line.textContent.startsWith('Exchanging')) await new Promise((done) => setTimeout(done, 5));
  return line.textContent;
})()"""

# Keeps whether an exchange had failed before the first row of a page was there.
AT_FIRST_ROW = """new MutationObserver((_, it) => {
  if (!document.querySelector('.row')) return;
  it.disconnect();
  globalThis.wasDue = document.querySelector('#exchanged').classList.contains('due');
}).observe(document, { childList: true, subtree: true });"""

TITLES = {
    "title": "The Daily Catalogue",
    "greeting": "Good morning, {name}",
    "imprint": "Imprint",
    "news": "The harbour is open again. Ferries leave from the new pier until further notice.",
    "search": "Search",
    "weather": "Rain until Thursday.",
}


def work_seen(room):
    """5. Work is seen: progress, what came and from whom, undo, notes, placeholders."""
    room.server.put(
        *[[name, "en", [text]] for name, text in TITLES.items()],
        ["greeting", "x-note", ["On the first page"]],
        ["items", "en", ["%d item", "%d items"]],
    )
    room.server.put(["title", "fr", ["Le catalogue"]], ["search", "fr", ["Chercher"]])
    anna, ben = room.editor("anna"), room.editor("ben")
    for editor in (anna, ben):
        editor.exchanged()
        editor.languages("en", "fr")
    equal(anna.said("#progress-text"), "2 of 7", "the progress")
    tags = anna.run("[...document.querySelector('#language').options].map((it) => it.value)")
    expect("en" in tags and "x-note" not in tags, f"notes are taken for a language: {tags}")
    said = anna.said("#language")
    expect("French: 2 of 7" in said, f"of the languages it is said: {said}")
    equal(anna.seen("greeting", ".note"), "On the first page", "the note")
    # placeholders, and a copy of the source
    anna.go("greeting")
    anna.page.type("Bonjour %s")
    warning = f"{anna.row('greeting')}.querySelector('.warning').textContent"
    expect(
        anna.run(warning) == "Not in your text: {name}. Not in the source: %s.",
        f"it is warned: {anna.run(warning)}",
    )
    anna.page.key("Escape")
    anna.page.key("c", code="KeyC", modifiers=1)
    expect(anna.text("greeting") == TITLES["greeting"], "the source is not copied")
    anna.go("greeting")
    anna.page.type("Bonjour {name}")
    anna.page.key("Enter")
    expect(anna.run(warning) == "", "a right text is warned of")
    # both plural forms
    anna.write("items", "%d article")
    anna.write("items", "%d articles", 1)
    anna.exchange()
    room.server.has("items", "fr", ["%d article", "%d articles"], "a form is lost")
    # outdated, and still right
    ben.exchange()
    ben.language("#language", "en")
    ben.write("title", "The Daily Catalogue.")
    ben.write("search", "Find")
    ben.exchange()
    anna.exchange()
    expect(
        anna.count("outdated") == 2 and anna.count("came") == 2,
        f"{anna.count('outdated')} are outdated",
    )
    expect(
        anna.said("#progress-text") == "4 of 7", f"the progress is {anna.said('#progress-text')}"
    )
    anna.show("came")
    expect(sorted(anna.listed()) == ["search", "title"], f"what came is {anna.listed()}")
    anna.show("outdated")
    anna.press("title", "stillRight")
    anna.go("search")
    anna.page.key("Enter", modifiers=2)
    expect(anna.count("outdated") == 0, "what is still right stays outdated")
    who = anna.seen("title", ".who")
    expect(who.startswith("anna"), f"it is said of who wrote it: {who}")
    # undo, more than one, by Control+Z too
    anna.show("all")
    anna.write("news", "Le port est ouvert.")
    anna.write("weather", "Pluie.")
    anna.click("#undo")
    expect(anna.text("weather") == "", "the last edit is not taken back")
    anna.go("title")
    anna.page.key("z", code="KeyZ", modifiers=2)
    expect(anna.text("news") == "", "the edit before is not taken back")
    expect(anna.run("document.activeElement.tagName") == "TEXTAREA", "the focus is lost by an undo")
    return [anna, ben]


def languages_chosen(room):
    """6. Languages are chosen, not typed."""
    anna = room.editor("anna", "en-US,en")
    anna.add("title", "Title")
    equal(list(anna.labels()), [("title", "en")], "what a new site begins with")
    typed_as = {"German": "de", "Français": "fr", "pt-BR": "pt-br", "日本語": "ja", "klingon": "klingon"}
    for typed, tag in typed_as.items():
        anna.choose("#language", "..")
        anna.opens("#language-dialog")
        anna.page.type(typed)
        anna.page.key("Enter")
        if tag == "klingon":
            anna.opens("#language-dialog")
            said = anna.said("#language-dialog .bad")
            expect("klingon" in said, "an unknown language is not warned of")
            anna.page.key("Enter")
        anna.closes("#language-dialog")
        anna.page.until(f"document.querySelector('#language').value === {quoted(tag)}")
        anna.write("title", typed)
        anna.kept()
    tags = sorted(tag for _, tag in anna.labels())
    expect(tags == ["de", "en", "fr", "ja", "klingon", "pt-br"], f"the languages are {tags}")
    anna.choose("#language", "..")
    anna.opens("#language-dialog")
    anna.page.type("no such language!")
    anna.page.key("Enter")
    expect("No language" in anna.said("#language-dialog .bad"), "a name of no language is taken")
    anna.click("#language-dialog .leave")
    anna.page.until("document.querySelector('#language').value === 'klingon'")
    return [anna]


def exchange_alone(room):
    """7. Exchange needs no thought: by itself, by files, and in words that tell faults apart."""
    room.server.put(["title", "en", ["Title"]], ["news", "en", ["News"]])
    anna, ben = (
        Editor(room.browser(), room.address, name, before=SHORT_MINUTE) for name in ("anna", "ben")
    )
    anna.exchanged()
    ben.exchanged()
    anna.language("#language", "fr")
    ben.language("#language", "fr")
    anna.write("title", "Titre")
    ben.until_text("title", "Titre")
    # both have something to send, and the second one also has something to receive
    with room.between.faulty("away"):
        anna.write("title", "Le titre")
        ben.write("news", "Nouvelles")
        anna.kept()
        ben.kept()
    anna.exchange()
    ben.exchange()
    ben.until_text("title", "Le titre")
    # what is wrong, in words of its own each
    said = {}
    for fault in ("away", 401, 404, 413, 500, "portal"):
        with room.between.faulty(fault):
            if fault == 413:
                anna.write("title", f"Titre {fault}")
            anna.exchange()
            line = anna.run(OUTCOME)
            said[fault] = line.partition("Not exchanged")[0].partition("Exchanged")[0].strip()
            is_told = said[fault] and "refused" not in said[fault].lower()
            expect(is_told, f"of {fault} it is said: {line}")
            if fault == "portal":
                anna.reload()
                anna.page.until(anna.row("title"))
                title = anna.run("document.title")
                expect("WiFi" not in title, f"the kept page is {title}")
        anna.exchange()
    expect(len(set(said.values())) == len(said), f"faults are not told apart: {said}")
    # (a page that waited for it would show its rows after an exchange that has failed)
    anna.page.ask("Page.addScriptToEvaluateOnNewDocument", source=AT_FIRST_ROW)
    with room.between.faulty("hang"):
        anna.run("window.isOld = true")
        anna.page.ask("Page.reload")
        is_there = f"document.readyState === 'complete' && {anna.row('title')}"
        anna.page.until(f"!window.isOld && {is_there}")
        expect(anna.run("wasDue === false"), "the page waits for a server that hangs")
    anna.reload()
    # the kept page goes on without a server
    with room.between.faulty("away"):
        anna.reload()
        anna.page.until(anna.row("title"))
    # by file: a colleague's is taken in under one's own name, and nothing is taken from a cut one
    carl = EMPTY.replace("NAME", "carl").replace("[]", '[["title","it",5,"carl",0,["Titolo"]]]')
    anna.give("#files-dialog .open-site", "carl.json", carl)
    anna.opens("#ask-dialog")
    first = anna.run("document.querySelector('#ask-dialog button').value")
    expect(first == "takeIn", f"what is offered first is {first}")
    anna.answer("takeIn")
    anna.page.until("document.querySelector('#notice').textContent.includes('Taken in: 1')")
    expect(anna.said("#site-name") == "anna", "another's file makes this browser that other")
    anna.exchange()
    room.server.has("title", "it", ["Titolo"], "what came by a file is not exchanged")
    anna.give("#files-dialog .open-site", "cut.json", carl[:40])
    anna.page.until("!document.querySelector('#problem').hidden")
    expect("not such a file" in anna.problem(), f"of a cut file it is said: {anna.problem()}")
    # language maps
    maps = '{"news":{"en":"New","it":"Notizie"},"__proto__":{"en":"p"}}'
    anna.give("#take-maps", "maps.json", maps)
    anna.answer("takeIn")
    anna.page.until("document.querySelector('#notice').textContent.includes('Taken in: 3')")
    anna.exchange()
    room.server.has("__proto__", "en", ["p"], "maps are not taken in")
    return [anna, ben]


def key_wanted(room):
    """A server that asks for a key exchanges with who has it."""
    room.server.stop()
    room.server.words = ("--token", "secret12345")
    room.server.start()
    room.server.put(["title", "en", ["Title"]])
    expect(room.server.ask("GET", "/summary")[0] == 401, "a summary is answered without the key")
    expect(room.server.ask("POST", "/delta", "{}")[0] == 401, "a delta is taken without the key")
    status = room.server.ask("GET", "/summary", Authorization="Bearer secret12345")[0]
    equal(status, 200, "a summary with the key")
    anna = room.editor("anna")
    anna.page.until("document.querySelector('#problem span button')")
    anna.click("#problem span button")
    anna.page.type("secret12345")
    anna.page.key("Enter")
    anna.page.until(anna.row("title"))
    anna.reload()
    anna.exchanged()
    ben = Editor(room.browser(), f"{room.address}#key=secret12345", "ben")
    ben.page.until(ben.row("title"))
    expect("secret" not in ben.run("location.href"), "the key stays in the address")
    return [anna, ben]


def many_messages(room):
    """8. 10,000 messages work."""
    room.server.python(
        """
import sys, silkwaram
maps = {}
for i in range(10000):
    labels = {'en': f'Text number {i} of {{name}}, some words long', 'de': f'Text {i} von {{name}}'}
    labels['fr'] = f'Texte {i} de {{name}}'
    if i % 3: labels['ar'] = f'نص {i}'
    if i % 2: labels['ja'] = f'項目 {i}'
    maps[f'part{i % 40}.message.{i:05d}'] = labels
with silkwaram.edit(sys.argv[1]) as site: site.import_maps(maps)
"""
    )
    anna = room.editor("anna")
    anna.exchanged()
    anna.languages("en", "fr")
    anna.kept()
    anna.page.ask("Performance.enable", timeDomain="threadTicks")

    def ticks(of="TaskDuration"):
        metrics = anna.page.ask("Performance.getMetrics")["metrics"]
        return next(it["value"] for it in metrics if it["name"] == of)

    def spent(run, until):
        before = ticks()
        run()
        anna.page.until(until)
        anna.run("new Promise((done) => requestAnimationFrame(() => setTimeout(done, 50)))")
        return (ticks() - before) * 1000

    name = anna.listed()[3]
    figures = {"edit": [], "find": []}
    for turn in range(7):
        anna.go(name)
        anna.page.type(f"Texte changé {turn}")
        is_kept = "document.querySelector('#notice').textContent.includes('Kept')"
        figures["edit"].append(spent(lambda: anna.page.key("Enter"), is_kept))
        anna.run("document.querySelector('#notice').textContent = ''")
        figures["find"].append(spent(lambda: anna.find(f"message.0{turn + 1}00"), "true"))
        anna.find("")
        anna.page.until(anna.row(name))
    rows = anna.run("document.querySelectorAll('.row').length")
    expect(rows < 100, f"{rows} rows are in the page")
    # the last message is reached by a scroll, and an edit there costs the same
    last = "[...document.querySelectorAll('.row')].at(-1)?.getAttribute('aria-posinset')"
    anna.page.until(f"scrollTo(0, document.body.scrollHeight), {last} === '10000'")
    anna.exchanged()
    figures["open"], clock = [], []
    for _ in range(3):
        before = ticks("ProcessTime")
        anna.page.reload()
        anna.page.until("performance.getEntriesByName('shown').length > 0")
        figures["open"].append((ticks("ProcessTime") - before) * 1000)
        clock.append(anna.run("performance.getEntriesByName('shown')[0].startTime"))
        anna.exchanged()
    # (the least, as a machine that does other things meanwhile takes longer)
    least = {name: min(them) for name, them in figures.items()}
    tap.note(
        ", ".join(f"{name} {least[name]:.0f} ms" for name in figures) + " of processor time, "
        f"by the clock it is shown after {sorted(clock)[1]:.0f} ms"
    )
    for name, most in (("open", 2000), ("edit", 50), ("find", 100)):
        expect(least[name] <= most, f"{name} takes {least[name]:.0f} ms")
    return [anna]
