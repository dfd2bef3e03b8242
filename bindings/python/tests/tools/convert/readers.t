#!/usr/bin/env python3
"""Tries what goes out of lexicat-convert, as other programs read it: the texts have to
be those of the maps.

It takes what program.py says. The readers are node with i18next (Debian's node-i18next), java,
translate-toolkit and Python.
"""
import contextlib
import csv
import importlib.util
import io
import json
import os
import plistlib
import shutil
import subprocess
from xml.etree import ElementTree

from program import PYTHON, fault, maps, run, tap, test

PLAIN = {"hi": "Hello <you> & \"it's\" \\ 100%", "menu.open": "Ouvrir é\u00a0😀 \u2028",
         "at": "@home", "blank": " a  b ", "lines": "one\ntwo\tthree", "formula": "=1+1",
         "end": "x\\"}
FORMS = {"pl": ["plik", "pliki", "plików"], "fr": ["fichier", "fichiers"], "ja": ["ファイル"],
         "ar": ["صفر", "واحد", "اثنان", "قليل", "كثير", "غيره"]}
# By CLDR: the place of the form of a number.
CHOICES = {"pl": {1: 0, 3: 1, 5: 2, 12: 2, 22: 1}, "fr": {0: 0, 1: 0, 2: 1}, "ja": {1: 0, 7: 0},
           "ar": {0: 0, 1: 1, 2: 2, 3: 3, 11: 4, 100: 5}}
# (where Debian has modules, of which not every node knows)
os.environ["NODE_PATH"] = "/usr/share/nodejs:/usr/lib/nodejs"


def went_out(kind, lang, labels, *words):
    """A file of labels of one language, all of which have to go out."""
    value = {key: {lang: text, **more} for key, (text, more) in labels.items()}
    status, output, errors = run(kind, "out", "--lang", lang, *words, data=maps(value))
    if status:
        fault(f"{kind}: {errors}")
    name = f"file.{lang}.{kind}"
    with open(name, "wb") as file:
        file.write(output)
    return name


def plain(kind, without=()):
    """A file of the plain texts."""
    labels = {key: (text, {}) for key, text in PLAIN.items() if key not in without}
    return went_out(kind, "fr", labels), {key: text for key, (text, _) in labels.items()}


def several(kind, lang):
    """A file of one plural."""
    more = {"x-forms": "plural"} if len(FORMS[lang]) == 1 else {}
    return went_out(kind, lang, {"files": (FORMS[lang], more)})


def compare(reader, wanted, got):
    """Compares what a reader found."""
    if wanted != got:
        fault(f"{reader}: wanted {wanted}, not {got}")


def output_of(*words):
    """What a program prints."""
    return subprocess.run(words, check=True, capture_output=True, text=True, timeout=120).stdout


def has_i18next():
    """Whether node has it."""
    return shutil.which("node") and not subprocess.run(
        ["node", "-e", "require('i18next')"], capture_output=True, check=False).returncode


def i18next():
    """i18next itself, which chooses the forms by Intl.PluralRules."""
    script = """
        const [name, lang, asked] = process.argv.slice(1);
        const i18next = require('i18next'), fs = require('fs');
        const texts = JSON.parse(fs.readFileSync(name));
        i18next.init({lng: lang, resources: {[lang]: {translation: texts}},
            interpolation: {escapeValue: false}});
        console.log(JSON.stringify(JSON.parse(asked).map(
            (it) => typeof it === 'string' ? i18next.t(it) : i18next.t('files', {count: it}))));"""

    def said(name, lang, asked):
        return json.loads(output_of("node", "-e", script, name, lang, json.dumps(asked)))
    name, texts = plain("i18next")
    compare("i18next", list(texts.values()), said(name, "fr", list(texts)))
    for lang, choices in CHOICES.items():
        compare(f"i18next {lang}", [FORMS[lang][place] for place in choices.values()],
                said(several("i18next", lang), lang, list(choices)))


def java():
    """java.util.Properties, by both ways of reading."""
    with open("Read.java", "w", encoding="utf-8") as file:
        file.write("""
            import java.io.*; import java.util.*; import java.nio.charset.*; import java.nio.file.*;
            class Read { public static void main(String[] words) throws Exception {
                Properties bytes = new Properties(), text = new Properties();
                bytes.load(new FileInputStream(words[0]));
                text.load(Files.newBufferedReader(Path.of(words[0]), StandardCharsets.UTF_8));
                if (!bytes.equals(text)) throw new Exception("two readings");
                PrintStream out = new PrintStream(System.out, true, "UTF-8");
                for (String key : new TreeSet<>(bytes.stringPropertyNames())) {
                    out.print(key + '\\0' + bytes.getProperty(key) + '\\0');
                } } }""")
    name, texts = plain("properties")
    parts = output_of("java", "Read.java", name).split("\0")
    compare("java", texts, dict(zip(parts[0::2], parts[1::2])))


def toolkit():
    """translate-toolkit, for what it reads."""
    from translate.storage import aresource, jsonl10n, properties, xliff

    def units(store, name):
        with open(name, "rb") as file:
            return [unit for unit in store.parsestring(file.read()).units if unit.istranslatable()]
    # (it takes what looks like an element for one, and a separator of lines for a blank)
    name, texts = plain("android", without=("hi", "menu.open"))
    compare("toolkit android", texts,
            {it.getid(): str(it.target) for it in units(aresource.AndroidResourceFile(), name)})
    for lang in ("pl", "fr", "ar"):
        store = aresource.AndroidResourceFile()
        store.settargetlanguage(lang)
        with open(several("android", lang), "rb") as file:
            store.parse(file.read())
        # (which prints what it finds)
        with contextlib.redirect_stdout(io.StringIO()):
            strings = [str(text) for text in store.units[0].target.strings]
        # (it has a form for `many` of French and for `other` of Polish, or not, by its version)
        compare(f"toolkit android {lang}", FORMS[lang], list(dict.fromkeys(filter(None, strings))))
    name, texts = plain("arb")
    compare("toolkit arb", texts, {it.getid().lstrip("."): str(it.target)
                                   for it in units(jsonl10n.ARBJsonFile(), name) if it.target})
    # (it takes a backslash at the end of a text for one before the quote)
    name, texts = plain("strings", without=("menu.open", "end"))
    store = properties.StringsUtf8File if hasattr(properties, "StringsUtf8File") else \
        properties.stringsutf8file
    compare("toolkit strings", texts, {it.name: str(it.source) for it in units(store(), name)})
    labels = {key: (text, {"en": f"en {text}"}) for key, text in PLAIN.items()}
    name = went_out("xliff", "fr", labels, "--source", "en")
    compare("toolkit xliff", {key: (f"en {text}", text) for key, text in PLAIN.items()},
            {it.xmlelement.get("id"): (str(it.source), str(it.target))
             for it in units(xliff.xlifffile(), name)})


def python():
    """What Python has: plistlib, csv and ElementTree."""
    for lang, names in (("pl", "one few many other"), ("ja", "other"),
                        ("ar", "zero one two few many other")):
        with open(several("stringsdict", lang), "rb") as file:
            entry = plistlib.load(file)["files"]
        wanted = dict(zip(names.split(), FORMS[lang] + FORMS[lang][-1:]))
        compare("plistlib", {"NSStringFormatSpecTypeKey": "NSStringPluralRuleType",
                             "NSStringFormatValueTypeKey": "d", **wanted}, entry["value"])
        compare("plistlib", "%#@value@", entry["NSStringLocalizedFormatKey"])
    # (aapt2 refuses several substitutions without their places, but where nothing is formatted)
    texts = {"of": "%d of %s", "placed": "%1$d of %2$s", "one": "%d of 100%%", "date": "%Y, %D",
             "width": "%5d and %-3s"}
    root = ElementTree.parse(went_out("android", "en", {key: (it, {}) for key, it in texts.items()}))
    compare("formatted", {"of": "false", "width": "false"},
            {it.get("name"): it.get("formatted") for it in root.iter("string") if it.get("formatted")})
    name = went_out("csv", "fr", {key: (text, {}) for key, text in PLAIN.items()})
    with open(name, encoding="utf-8", newline="") as file:
        rows = list(csv.reader(file))
    guarded = {**PLAIN, "formula": "'=1+1", "at": "'@home"}
    compare("csv", [["id", "fr"]] + [[key, guarded[key]] for key in sorted(guarded)], rows)
    labels = {key: (text, {"en": f"en {text}"}) for key, text in PLAIN.items()}
    root = ElementTree.parse(went_out("xliff2", "fr", labels, "--source", "en")).getroot()
    space = "{urn:oasis:names:tc:xliff:document:2.0}"
    compare("ElementTree", {key: (f"en {text}", text) for key, text in PLAIN.items()},
            {unit.get("name"): tuple(unit.findtext(f".//{space}{it}")
                                     for it in ("source", "target"))
             for unit in root.iter(f"{space}unit")})
    compare("ElementTree", ("en", "fr", "2.0"),
            (root.get("srcLang"), root.get("trgLang"), root.get("version")))


def try_reader(name, call, is_there, what):
    """Tries a reader, if it is there."""
    if is_there:
        test(f"what goes out is read by {name}", call)
    else:
        tap.lacks(f"what goes out is read by {name}", what)


try_reader("i18next", i18next, has_i18next(), "node with i18next (node-i18next)")
try_reader("java.util.Properties", java, shutil.which("java"), "java")
try_reader("translate-toolkit", toolkit, importlib.util.find_spec("translate"),
           f"translate-toolkit for {PYTHON}")
try_reader("Python", python, True, "")
tap.end()
