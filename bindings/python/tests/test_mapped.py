"""A site that is asked where its file lies, while the file is replaced, deleted and spoiled.

    SILKWARAM_LIBRARY=build/lib/libsilkwaram.so PYTHONPATH=bindings/python/src \
        python3 -m unittest discover -s bindings/python/tests
"""
import copy
import os
import pathlib
import pickle
import signal
import threading
import unittest

import test_silkwaram
from cases import CELLS, WRITTEN, FileCase, document, greeting, rewritten, run_python
from cases import side_by_side, written
from silkwaram import MappedSite, Refused, mapped
from silkwaram.web import LABEL
from test_web import WAYS, values


class Files(FileCase):
    def ways(self, content=WRITTEN):
        """Gives the site of a file with this content: mapped, then copied."""
        for is_copied in (False, True):
            self.replace(content)
            with mapped(self.path, copy=is_copied) as site:
                yield site

    def says(self, site, text, id="greeting"):
        self.assertEqual(site.text(id, "en"), text)

    def run_python(self, program):
        """Runs a program with the path as its argument."""
        return run_python(f"import os, pathlib, sys, silkwaram\n{program}", self.path)


class Questions(Files, test_silkwaram.Questions):
    """What is asked of open sites is asked of files."""

    def test_a_site_without_cells_and_a_document_without_its_line_feed(self):
        for site in self.ways(written()):
            self.assertIsNone(site.lookup("m", "en", default="en"))
        for site in self.ways(WRITTEN[:-1]):
            self.says(site, "Hello")

    def test_paths(self):
        for path in (self.path, os.fsencode(self.path), pathlib.Path(self.path)):
            with mapped(path) as site:
                self.says(site, "Hello")
        for path in (5, None, [self.path]):
            with self.assertRaisesRegex(TypeError, "^path must be str, bytes or os.PathLike, not "):
                mapped(path)


class Rewritten(Files):
    """Sites that other programs wrote without blanks."""

    IDS = ["Abbrechen", "Schließen", "Größe & mehr", "a/b", "<b>", "日本", "😀", 'quote "],["']
    IDS += ["back\\slash", "u00df", "\u2028", "zuletzt"]
    LANGUAGES = ("de", "en", "fr")

    def test_each_label_is_found(self):
        ids = sorted(self.IDS, key=str.encode)
        cells = [(id, lang, [f"{lang} {id}"]) for id in ids for lang in self.LANGUAGES]
        for program, content in rewritten(*cells):
            for site in self.ways(content):
                for id, lang, texts in cells:
                    with self.subTest(program=program, id=id, lang=lang):
                        self.assertEqual(site.texts(id, f"{lang}, *;q=0"), texts)
                for id in ids:
                    found = [(it.language, it.texts) for it in site.filter(id, "*")]
                    self.assertEqual(found, [(it, [f"{it} {id}"]) for it in self.LANGUAGES])
                for id in ("Schlieu00dfen", "Gr", "b", "ß", "zuletzt!"):
                    self.assertIsNone(site.lookup(id, "*"))


class Begins(Files):
    """What `mapped` itself raises."""

    def test_a_file_that_cannot_be_read(self):
        for is_copied in (False, True):
            with self.assertRaises(FileNotFoundError) as it:
                mapped(self.path + ".none", is_copied)
            self.assertEqual(it.exception.filename, self.path + ".none")
            with self.assertRaises(IsADirectoryError):
                mapped(os.path.dirname(self.path), is_copied)

    def test_what_is_no_site(self):
        cut = WRITTEN[1:], WRITTEN[:-9]
        contents = [(it, 19) for it in (b"", b"\n", b"not a site", *cut)]
        for content, number in [*contents, (b"{}\n", 20), (b'{"cells":[]}', 20)]:
            for is_copied in (False, True):
                self.replace(content)
                with self.subTest(content=content[:20], is_copied=is_copied):
                    fault = self.refuses(number, mapped, self.path, is_copied)
                    if number == 20:
                        self.assertEqual(fault.wanted, "a site document is wanted")


class Checked(Files):
    """What `check` asks of each file."""

    # (Go writes these cells as Silkwaram does)
    OTHERS = [document(*CELLS), *(it for by, it in rewritten(*CELLS) if by != "Go")]
    OTHERS += [WRITTEN + b"\n", b" " + WRITTEN]
    # (a row that is none, which questions about other messages do not read)
    SPOILED = WRITTEN.replace(b'"ja",5,"paris",4', b'"ja" is no row')

    def ways(self, content=WRITTEN):
        for is_copied in (False, True):
            self.replace(content)
            with mapped(self.path, copy=is_copied, check=True) as site:
                yield site

    def asks(self, site):
        calls = site.lookup, site.text, site.filter
        return [lambda call=call: call("greeting", "en") for call in calls]

    def is_other(self, ask):
        with self.assertRaises(ValueError) as it:
            ask()
        self.assertNotIsInstance(it.exception, Refused)
        said = f"{self.path} is a site, but not as Silkwaram writes it"
        self.assertEqual(str(it.exception), said)

    def test_what_silkwaram_writes(self):
        for content in (WRITTEN, WRITTEN[:-1], written()):
            for site in self.ways(content):
                self.says(site, "Hello" if content != written() else None)

    def test_another_form_and_no_site(self):
        for is_copied in (False, True):
            for content in self.OTHERS:
                self.replace(content)
                self.is_other(lambda: mapped(self.path, copy=is_copied, check=True))
            for content, number in (self.SPOILED, 19), (b"", 19), (b"{}\n", 20), (WRITTEN[:-9], 19):
                self.replace(content)
                self.refuses(number, mapped, self.path, copy=is_copied, check=True)

    def test_a_file_that_is_replaced(self):
        for site in self.ways():
            for content in (*self.OTHERS, self.SPOILED):
                with self.assertLogs("silkwaram", "WARNING") as logged:
                    self.replace(content)
                    for ask in (*self.asks(site), *self.asks(site.share())):
                        self.assertTrue(ask())
                    self.says(site, "Hello")
                self.assertEqual(len(logged.output), 1)
            self.replace(greeting("new"))
            self.says(site, "new")
            os.unlink(self.path)
            self.says(site, "new")

    def test_without_it_a_file_is_not_read(self):
        self.replace(self.SPOILED)
        with mapped(self.path) as site:
            self.says(site, "Hello")


class Replaced(Files):
    def test_a_new_file_is_asked_at_the_next_call(self):
        for site in self.ways(greeting("old")):
            for text in ("new", "n", "new" * 20000, "newer"):
                self.replace(greeting(text))
                self.says(site, text, "last")
                self.assertEqual(site.lookup("greeting", "en").texts, [text])
                self.assertEqual(site.filter("greeting", "en")[0].texts, [text])

    def test_a_file_of_the_same_size_and_time(self):
        for site in self.ways(greeting("old")):
            held = os.stat(self.path)
            self.replace(greeting("new"))
            os.utime(self.path, ns=(held.st_atime_ns, held.st_mtime_ns))
            self.says(site, "new")

    def test_an_older_file_and_a_link(self):
        for site in self.ways(greeting("old")):
            self.replace(greeting("new"))
            os.utime(self.path, (1, 1))
            self.says(site, "new")
            os.rename(self.path, self.path + ".far")
            os.symlink(self.path + ".far", self.path)
            self.says(site, "new")
            pathlib.Path(self.path + ".other").write_bytes(greeting("other"))
            self.replace_by_link(self.path + ".other")
            self.says(site, "other")

    def test_a_file_that_is_gone(self):
        for site in self.ways(greeting("old")):
            os.unlink(self.path)
            self.says(site, "old")
            os.mkdir(self.path)
            self.says(site, "old")
            os.rmdir(self.path)
            self.says(site, "old", "last")
            self.replace(greeting("new"))
            self.says(site, "new")

    # (each is refused by the first question that is put to it)
    NO_SITES = [b"", b"{}\n", greeting("new")[:-5], WRITTEN[:9], WRITTEN.replace(b"2}", b"3}")]
    NO_SITES += [b'{"addressee":"paris","cells":[],"kind":"delta","version":2}\n', b"\xff" + WRITTEN]

    def test_a_file_that_is_no_site(self):
        for site in self.ways(greeting("old")):
            for content in self.NO_SITES:
                with self.assertLogs("silkwaram", "WARNING") as logged:
                    self.replace(content)
                    for _ in range(3):
                        self.says(site, "old")
                        self.says(site.share(), "old")
                said = f"{self.path} is not read anew, and the site stays: refused "
                self.assertEqual(len(logged.output), 1)
                self.assertIn(said, logged.output[0])
            self.replace(greeting("new"))
            self.says(site, "new")

    def test_a_fifo_is_not_waited_for(self):
        for site in self.ways(greeting("old")):
            os.unlink(self.path)
            os.mkfifo(self.path)
            self.says(site, "old")
            with self.assertRaisesRegex(OSError, "not a plain file"):
                mapped(self.path)
            os.unlink(self.path)
            self.replace(greeting("new"))
            self.says(site, "new")

    def test_a_share_stays(self):
        for site in self.ways(greeting("old")):
            share = site.share()
            self.replace(greeting("new"))
            self.says(share, "old")
            self.says(site, "new")
            again = share.share()
            share.close()
            self.says(again, "old", "last")
            self.says(site, "new", "last")
            self.is_closed(lambda: share.text("last", "en"))

    def test_a_map_is_let_go(self):
        def maps():
            with open("/proc/self/maps", encoding="utf-8") as file:
                return sum(os.path.basename(self.path) in line for line in file)

        def handles():
            return len(os.listdir("/proc/self/fd"))

        begun = handles()
        site = mapped(self.path)
        for at in range(100):
            self.replace(greeting(str(at)))
            self.says(site, str(at))
            self.assertEqual(maps(), 1)
        share = site.share()
        self.replace(greeting("new"))
        self.says(site, "new")
        self.assertEqual(maps(), 2)
        del share
        self.assertEqual(maps(), 1)
        site.close()
        self.assertEqual((maps(), handles()), (0, begun))
        with self.assertRaises(Refused):
            self.replace(b"no site")
            mapped(self.path)
        self.assertEqual((maps(), handles()), (0, begun))


class Spoiled(Files):
    """A file that is written into, which it must never be."""

    def test_a_copy_does_not_end_the_process(self):
        ran = self.run_python("""
path = pathlib.Path(sys.argv[1])
site = silkwaram.mapped(path, copy=True)
held, share = path.read_bytes(), site.share()
os.truncate(path, 0)
print(site.text("greeting", "en"), share.text("greeting", "en"))
path.write_bytes(held.replace(b"Hello", b"Good day"))
print(site.text("greeting", "en"))
""")
        said = "is not read anew, and the site stays: refused 19"
        self.assertEqual(ran.stdout, "Hello Hello\nGood day\n")
        self.assertEqual(ran.stderr.count(said), 1)

    def test_a_map_of_a_file_that_was_cut_is_not_asked(self):
        ran = self.run_python("""
site = silkwaram.mapped(sys.argv[1])
os.truncate(sys.argv[1], 0)
for _ in range(2):
    try:
        site.text("greeting", "en")
    except silkwaram.Refused as fault:
        print(fault.number)
""")
        self.assertEqual((ran.returncode, ran.stdout, ran.stderr), (0, "19\n19\n", ""))

    def test_a_map_ends_it(self):
        ran = self.run_python("""
share = silkwaram.mapped(sys.argv[1]).share()
os.truncate(sys.argv[1], 0)
share.text("greeting", "en")
""")
        self.assertEqual(ran.returncode, -signal.SIGBUS)


class Held(Files):
    def test_a_site_that_is_closed(self):
        for site in self.ways():
            site.close()
            ask = lambda: site.text("greeting", "en")
            self.is_closed(ask, lambda: site.filter("m", "en"), site.share)
            site.close()
            self.replace(WRITTEN)
            self.is_closed(lambda: site.lookup("greeting", "en"))

    def test_a_copy_is_a_share(self):
        for site in self.ways(greeting("old")):
            other = copy.copy(site)
            self.assertIsInstance(other, MappedSite)
            self.replace(greeting("new"))
            self.says(other, "old")

    def test_what_copies_no_site(self):
        for site in self.ways():
            for make in (copy.deepcopy, pickle.dumps, lambda it: pickle.dumps([it], 0)):
                with self.assertRaisesRegex(TypeError, "^a MappedSite is neither pickled nor "):
                    make(site)

    def test_a_forked_process(self):
        for site in self.ways(greeting("old")):
            # (as a thread holds it that opens the file, which the child does not have)
            site._lock.acquire()
            child = os.fork()
            if child == 0:
                texts = [site.text("greeting", "en")]
                self.replace(greeting("new"))
                texts.append(site.text("greeting", "en"))
                os._exit(texts != ["old", "new"])
            self.assertEqual(os.waitpid(child, 0)[1], 0)
            self.says(site, "old")
            site._lock.release()
            self.says(site, "new")

    def test_a_process_that_ends_with_it(self):
        ran = self.run_python("""
kept = silkwaram.mapped(sys.argv[1]), silkwaram.mapped(sys.argv[1], copy=True)
try:
    silkwaram.mapped(sys.argv[1] + ".none")
except FileNotFoundError:
    print(kept[0].text("greeting", "en"))
""")
        self.assertEqual((ran.returncode, ran.stdout, ran.stderr), (0, "Hello\n", ""))


class Threads(Files):
    def ask(self, threads, work, meanwhile):
        """What the threads found wrong that each do the work until `meanwhile` is done."""
        wrong, ends = [], threading.Event()

        def asks():
            while not ends.is_set():
                fault = work()
                if fault:
                    wrong.append(fault)
                    return

        def changes():
            try:
                meanwhile()
            finally:
                ends.set()

        side_by_side(*[asks] * threads, changes)
        return wrong

    def test_a_file_that_is_replaced_while_threads_ask(self):
        def state_in(site, id):
            return int(site.text(id, "en").split()[0])

        for site in self.ways(greeting("0")):
            seen = threading.local()

            def work():
                share = site.share()
                state, before = state_in(share, "greeting"), getattr(seen, "state", 0)
                seen.state = state_in(site, "last")
                if state_in(share, "last") != state:
                    return "a share of two states"
                if not before <= state <= seen.state:
                    return f"{before}, then {state}, then {seen.state}"
                return None

            def replaces():
                for state in range(1, 300):
                    # (of sizes that rise and fall, by more than a page)
                    self.replace(greeting(f"{state} {'x' * (state * 997 % 9000)}"))
                    if state % 10 == 0:
                        os.unlink(self.path)

            self.assertEqual(self.ask(8, work, replaces), [])
            self.replace(greeting("300"))
            self.says(site, "300")

    def test_a_site_that_is_closed_while_threads_ask(self):
        for _ in range(30):
            for site in self.ways(greeting("0")):

                def work():
                    try:
                        return None if site.text("greeting", "en") in "01" else "another text"
                    except ValueError as fault:
                        return None if str(fault) == "the site is closed" else repr(fault)

                def closes():
                    self.replace(greeting("1"))
                    site.close()

                self.assertEqual(self.ask(4, work, closes), [])
                with self.assertRaises(ValueError):
                    site.text("greeting", "en")


class Middleware(Files):
    def test_a_site_of_the_middleware(self):
        def text(given):
            before = given[LABEL]("greeting").texts[0]
            self.replace(greeting("new"))
            return f"{before} {given[LABEL]('last').texts[0]} {given[LABEL]('none')}"

        for name, middleware, app, ask in WAYS:
            for site in self.ways(greeting("old")):
                words = {"site": site, "message": "greeting", "default": "en"}
                asked = middleware(app(text=text), **words)
                status, headers, body = ask(asked, ["en-GB, fr;q=0.5"])
                self.assertEqual((status, body), (200, b"old old None"))
                self.assertEqual(values(headers, "content-language"), ["en"])
                self.assertEqual(ask(asked, ["ja"])[2], b"new new None")

    def test_what_is_refused_when_it_is_made(self):
        for name, middleware, app, _ in WAYS:
            for site in self.ways():
                with self.assertRaises(Refused):
                    middleware(app(), site=site, message="@title", default="en")
                site.close()
                with self.assertRaises(ValueError):
                    middleware(app(), site=site, default="en")


if __name__ == "__main__":
    unittest.main()
