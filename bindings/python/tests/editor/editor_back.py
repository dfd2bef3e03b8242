"""Promises of the editor about what comes late: edits that a later one overrides, and files that were
sent out and come back."""
import json

from editor_page import expect

# Keeps the last file that the page saves, and saves none.
SAVED = """(() => { const make = URL.createObjectURL;
  URL.createObjectURL = (it) => { it.text().then((text) => { globalThis.saved = text; });
    return make(it); };
  HTMLAnchorElement.prototype.click = () => {}; })()"""


# Keeps what the page says, as it exchanges by itself too, and then says something else.
NOTICES = """(() => { globalThis.notices = [];
  const notice = document.querySelector('#notice');
  new MutationObserver(() => notices.push(notice.textContent)).observe(
    notice, { childList: true, characterData: true, subtree: true }); })()"""


def overridden_shown(room):
    """An edit that a later one overrides is counted, shown beside it, and taken back."""
    room.server.put(["title", "en", ["Title"]], ["news", "en", ["News"]])
    anna, ben = room.editor("anna"), room.editor("ben")
    for editor in (anna, ben):
        editor.exchanged()
        editor.languages("en", "fr")
    anna.run(NOTICES)
    with room.between.faulty("away"):
        anna.write("title", "Titre d'Anna")
        anna.write("news", "Actualités")
        anna.kept()
    ben.write("title", "Titre de Ben")
    ben.exchange()
    room.server.has("title", "fr", ["Titre de Ben"], "the later edit is lost")
    anna.exchange()
    anna.until_text("title", "Titre de Ben")
    said = anna.run("notices.join('\\n')")
    expect("overridden by a later one: 1." in said, f"of an edit that was overridden: {said}")
    anna.reload()
    anna.page.until(anna.row("title"))
    anna.show("came")
    expect(anna.listed() == ["title"], f"what came from others is {anna.listed()}")
    former = f"{anna.row('title')}.querySelector('.former')"
    shown = anna.run(f"{former}.hidden ? '' : {former}.textContent")
    expect("Yours was:" in shown and "Titre d'Anna" in shown, f"the text that was: {shown}")
    anna.run(f"{former}.querySelector('button').click()")
    anna.until_text("title", "Titre d'Anna")
    anna.exchange()
    room.server.has("title", "fr", ["Titre d'Anna"], "it is not taken back")
    expect(anna.run(f"{former}.hidden"), "what was taken back is offered once more")
    anna.click("#undo")
    anna.exchange()
    room.server.has("title", "fr", ["Titre de Ben"], "that is no edit to undo")
    return [anna, ben]


def late_files(room):
    """A file that comes back late changes what was edited in it, and nothing else."""
    room.server.put(
        *[[id, "en", [id.title()]] for id in ("log in", "log out", "search")],
        ["log in", "fr", ["Connexion"]],
        ["log out", "fr", ["Déconnexion"]],
        ["search", "fr", ["Recherche"]],
    )
    anna = room.editor("anna")
    anna.exchanged()
    anna.languages("en", "fr")
    anna.run(SAVED)
    # Monday: both files go out.
    po = room.server.ask("GET", "/po?lang=fr&source=en")[2].decode()
    anna.click("#save-maps")
    anna.page.until("globalThis.saved !== undefined")
    maps = json.loads(anna.run("globalThis.saved"))
    expect(maps["log in"] == {"en": "Log In", "fr": "Connexion"}, f"what is saved is {maps}")
    # Tuesday: a correction. Friday: the files come back, in each another text was edited.
    anna.write("log in", "Se connecter")
    anna.exchange()
    anna.give("#take-po", "fr.po", po.replace('"Recherche"', '"Chercher"'))
    anna.until_text("search", "Chercher")
    maps["log out"]["fr"] = "Se déconnecter"
    anna.give("#take-maps", "maps.json", json.dumps(maps))
    anna.until_text("log out", "Se déconnecter")
    anna.exchange()
    labels = room.server.labels()
    expect(labels[("log in", "fr")] == ["Se connecter"], "a correction is gone")
    expect(labels[("search", "fr")] == ["Chercher"], "an edit in the PO file is gone")
    expect(labels[("log out", "fr")] == ["Se déconnecter"], "an edit in the JSON file is gone")
    # Undo takes the whole file back.
    maps["search"]["fr"], maps["log in"]["en"] = "Rechercher", "Sign in"
    anna.give("#take-maps", "maps.json", json.dumps(maps))
    anna.until_text("search", "Rechercher")
    anna.click("#undo")
    anna.until_text("search", "Chercher")
    anna.exchange()
    expect(room.server.labels() == labels, "a file is not taken back as a whole")
    # Of a file that the page does not know it is shown first what would change.
    del maps["@sent"]
    anna.give("#take-maps", "maps.json", json.dumps(maps))
    anna.opens("#ask-dialog")
    shown = anna.run("document.querySelector('#ask-list').textContent")
    expect("Se connecter" in shown and "Connexion" in shown, f"what would change: {shown}")
    anna.answer("close")
    anna.exchange()
    expect(room.server.labels() == labels, "a file was taken that was not to be")
    return [anna]
