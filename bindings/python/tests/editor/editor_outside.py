"""The editor beside other tools: PO files, lexicat-exchange, and files that others changed."""
import json
import os
import subprocess
import time
import unittest

from editor_page import DAY, SOURCES, cells_of, equal, expect

PO = "text/x-gettext-translation"
LEXICAT = os.path.abspath(os.environ.get("LEXICAT", f"{SOURCES}/build/lexicat"))


def po_files(room):
    """A language goes out as a PO file, and comes back."""
    room.server.put(["title", "en", ["Title"]], ["news", "en", ["News"]])
    room.server.put(["title", "fr", ["Titre"]])
    address = "/po?lang=fr&source=en"
    status, heads, po = room.server.ask("GET", address)
    equal((status, heads.get_content_type()), (200, PO), f"no PO file: {po[:300]}")
    expect(b'msgid "Title"\nmsgstr "Titre"' in po, f"the PO file is {po.decode()}")
    done = po.replace(b'msgid "News"\nmsgstr ""', 'msgid "News"\nmsgstr "Actualités"'.encode())
    anna = room.editor("anna")
    anna.languages("en", "fr")
    anna.give("#take-po", "fr.po", done.decode())
    anna.until_text("news", "Actualités")
    room.server.has("news", "fr", ["Actualités"], "a PO file is not taken")
    status = room.server.ask("POST", address, done, Content_Type="text/plain")[0]
    equal(status, 415, "a page of another server could send one")
    status, _, said = room.server.ask("POST", address, done[:-20], Content_Type=PO)
    expect(status == 422 and json.loads(said)["words"], "a PO file that was cut is taken")
    status = room.server.ask("GET", "/po?lang=--help&source=en")[0]
    equal(status, 422, "an option is taken for a language")
    return [anna]


def by_lexicat_exchange(room):
    """lexicat-exchange speaks the protocol too, and says what is wrong."""
    site = f"{room.folder}/tokyo.json"
    if not os.path.exists(LEXICAT):
        raise unittest.SkipTest("there is no build/lexicat")
    path = f"{SOURCES}/build:{os.environ['PATH']}"
    tools = {**os.environ, "PATH": path, "LEXICAT": LEXICAT}

    def run(status, *words):
        done = subprocess.run(words, env=tools, capture_output=True, text=True)
        expect(done.returncode == status, f"{words[0]}: status {done.returncode}: {done.stderr}")
        return done.stdout + done.stderr

    exchanged = lambda *words: run(0, "lexicat-exchange", *words)
    room.server.put(["title", "en", ['1,"x",0,["a\\",5,"b",6,']])
    room.server.put(["gone", "en", ["x"]], ["gone", "en", []])
    anna = room.editor("anna")
    run(0, "lexicat-file", site, "new", "--site", "tokyo")
    run(0, "lexicat-file", site, "put", "--id", "title", "--lang", "ja", "題名")
    address = f"http://localhost:{room.server.port}/"
    equal(exchanged(address, site), "sent 1, received 2\n", "other labels are exchanged")
    equal(exchanged(address, site), "sent 0, received 0\n", "labels are exchanged twice")
    with open(site, encoding="utf-8") as file:
        expect(cells_of(file.read()) == cells_of(room.server.site()), "the cells are not the same")
    anna.exchange()
    equal(anna.labels()[("title", "ja")], ["題名"], "what lexicat-exchange sent")
    with room.between.faulty("portal"):
        run(8, "lexicat-exchange", room.address, site)
    with room.between.faulty("away"):
        run(8, "lexicat-exchange", room.address, site)
    run(2, "lexicat-exchange", site)
    run(4, "lexicat-exchange", address, f"{room.folder}/none.json")
    late = ["--force", "--now", str(int(time.time() * 1000) + 10 * DAY)]
    run(0, "lexicat-file", site, "put", *late, "--id", "x", "--lang", "en", "x")
    expect("time is ahead" in run(3, "lexicat-exchange", address, site), "a late label is taken")
    room.server.stop()
    room.server.words = ("--token", "secret12345")
    room.server.start()
    address = f"http://localhost:{room.server.port}/"
    expect("key" in run(3, "lexicat-exchange", address, site), "no key is wanted")
    other, key = f"{room.folder}/other.json", f"{room.folder}/key"
    with open(key, "w", encoding="utf-8") as file:
        file.write("secret12345\n")
    run(0, "lexicat-file", other, "new", "--site", "other")
    said = exchanged("--key-file", key, address, other)
    equal(said, "sent 0, received 3\n", "with the key it is refused")
    return [anna]


def tampered(room):
    """The server: what it takes, of whom, and what it says."""
    ask = room.server.ask
    room.server.put(["title", "en", ["Title"]])
    status, heads, body = ask("GET", "/summary")
    expect(status == 200 and json.loads(body)["owner"] == "server" and heads["Date"], "no summary")
    status = ask("GET", "/summary", If_None_Match=heads["ETag"])[0]
    equal(status, 304, "what is known is sent again")
    for wanted, of in (
        (404, ("GET", "/nothing")),
        (404, ("GET", "/../_server.py")),
        (404, ("POST", "/nothing", "{}")),
        (422, ("POST", "/delta", "{}")),
        (422, ("POST", "/summary", "[1")),
    ):
        status, heads, body = ask(*of)
        is_told = heads["Silkwaram-Exchange"] and json.loads(body)["words"]
        expect(status == wanted and is_told, f"{of}: {status} {body[:200]}")
    for wanted, more in (
        (415, {"Content_Type": "text/plain"}),
        (421, {"Host": "evil.com"}),
        (421, {"Sec_Fetch_Site": "cross-site"}),
        (413, {"Content_Length": "99999999"}),
    ):
        expect(ask("POST", "/delta", "{}", **more)[0] == wanted, f"{more} is not {wanted}")
    cell = ["a", "en", int(time.time() * 1000) + 2 * DAY, "x", 0, ["x"]]
    late = {"cells": [cell], "kind": "delta", "to": "server", "version": 2}
    status, _, body = ask("POST", "/delta", json.dumps(late))
    expect(status == 422 and json.loads(body)["number"] == 29, "a late delta is taken")
    status, heads, body = ask("GET", "/silkwaram.wasm", Accept_Encoding="gzip")
    equal((status, heads["Content-Encoding"]), (200, "gzip"), "the module is not compressed")
    expect(len(body) < 300000, f"the module has {len(body)} bytes")
    return []
