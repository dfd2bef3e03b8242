"""What is done to whole messages in the editor: their notes, and their deletion."""
from editor_page import equal, expect


def whole_messages(room):
    """A message gets a note, and is deleted with all its texts; both can be taken back."""
    room.server.put(
        *[[name, tag, [tag]] for name in ("title", "__proto__") for tag in ("en", "fr")],
        ["news", "en", ["News"]],
        ["title", "x-note", ["Above\r\nthe page"]],
    )
    anna = room.editor("anna")
    anna.exchanged()
    anna.languages("en", "fr")

    def open_dialog(name):
        anna.go(name)
        anna.page.key("m", code="KeyM", modifiers=1)
        anna.opens("#message-dialog")
        anna.run("document.querySelector('#message-dialog textarea').select()")

    def note():
        return anna.labels().get(("title", "x-note"))

    closed = "!document.querySelector('#message-dialog').open"
    open_dialog("title")
    anna.page.key("Enter", modifiers=2)
    anna.page.until(closed)
    expect(note() == ["Above\r\nthe page"], f"a note that nobody changed is now {note()}")
    open_dialog("title")
    anna.page.type("In the head")
    anna.page.key("Enter", modifiers=2)
    anna.page.until(closed)
    shown = anna.seen("title", ".note")
    expect(shown == "In the head" and note() == ["In the head"], f"the note is {shown}")
    equal(anna.focused(), "title", "the focus is lost")
    anna.click("#undo")
    expect(note() == ["Above\r\nthe page"], "a note is not taken back")
    # what another wrote meanwhile
    open_dialog("title")
    anna.page.type("Mine")
    room.server.put(["title", "x-note", ["Of another"]])
    anna.exchange()
    for who, why in (("Of another", "without a word"), ("Mine", "at all")):
        anna.page.key("Enter", modifiers=2)
        expect(note() == [who], f"a note of another is not undone {why}, but {note()}")
        said = anna.said("#message-dialog .bad")
        expect("Of another" in said, f"of another's note it is said: {said}")
    anna.page.until(closed)
    remove = "document.querySelector('#remove-message').click()"
    open_dialog("title")
    room.server.put(["title", "fr", ["Titre"]])
    anna.exchange()
    anna.run(remove)
    expect(("title", "fr") in anna.labels(), "a text that just came is deleted without a word")
    anna.run(remove)
    anna.page.until(closed)
    expect(not anna.run(f"!!({anna.row('title')})"), "a message that was deleted is listed")
    # (the focus goes to the row beside in a later turn than the dialog closes)
    anna.page.until("document.activeElement.closest('.row')?.label === 'news'")
    open_dialog("__proto__")
    anna.run(remove)
    anna.exchange()
    held = room.server.labels()
    expect(list(held) == [("news", "en")], f"of messages that were deleted there is {list(held)}")
    for _ in range(2):
        anna.click("#undo")
    anna.exchange()
    held = room.server.labels()
    expect(len(held) == 6 and held[("title", "fr")] == ["Titre"], f"taken back are {list(held)}")
    expect(held[("title", "x-note")] == ["Mine"], "the note is not taken back")
    return [anna]
