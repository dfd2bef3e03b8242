#!/usr/bin/env python3
"""Passes files of Debian packages, as they are installed, to lexicat-convert: each has
to come back as it came in, and what is not taken has to be named. What is in XLIFF is compared with
what ElementTree finds there, and the texts of Fluent are counted.

It takes what program.py says, and the files of php-symfony-validator, gnustep-gui-common,
firefox-esr-l10n-de and a Java (openjdk-17-jre-headless).
"""
import glob
import io
import re
import zipfile
from xml.etree import ElementTree

from program import back_and_forth, fault, run, tap, test

SYMFONY = "/usr/share/php/Symfony/Component/Validator/Resources/translations/*.xlf"
JAVA = "/usr/lib/jvm/*/conf/*.properties"
GNUSTEP = "/usr/share/GNUstep/Libraries/gnustep-gui/**/*.strings"
FIREFOX = "/usr/lib/firefox-esr/**/*.xpi"


def found(place):
    """The files of a place."""
    return sorted(glob.glob(place, recursive=True))


def files_of(place):
    """The name and the bytes of each, and of each in an archive."""
    for path in found(place):
        with open(path, "rb") as file:
            data = file.read()
        if not path.endswith(".xpi"):
            yield path, data
            continue
        with zipfile.ZipFile(io.BytesIO(data)) as archive:
            for name in archive.namelist():
                yield f"{path}:{name}", archive.read(name)


def of_kind(kind, place, *words):
    """The files of a format at a place, each of which comes back; with the maps of each."""
    ending = {"fluent": "ftl", "xliff": "xlf"}.get(kind, kind)
    for name, data in files_of(place):
        if name.endswith(f".{ending}"):
            yield name, data, back_and_forth([kind, *words], data, name)[0]


def counted(texts):
    """What some files came to, of each of which the number of texts is known."""
    if not sum(texts):
        fault("no text was tried")
    return f"{sum(texts)} texts of {len(texts)} files came back as they were"


def xliff():
    """The translations of Symfony."""
    space, texts = "{urn:oasis:names:tc:xliff:document:1.2}", []
    for name, data in files_of(SYMFONY):
        root = ElementTree.fromstring(data)
        lang = root.find(f"{space}file").get("target-language").replace("_", "-").lower()
        if lang == "en":
            continue
        words = ["--lang", lang, "--source", "en"]
        taken, _ = back_and_forth(["xliff", *words], data, name)
        texts.append(len(taken))
        _, _, said = run("xliff", "in", *words, data=data)
        for unit in root.iter(f"{space}trans-unit"):
            wanted = {"en": unit.findtext(f"{space}source")}
            target = unit.find(f"{space}target")
            if target is not None and not target.get("state", "").startswith(("needs-", "new")):
                wanted[lang] = "".join(target.itertext())
            if taken.get(unit.get("id")) != wanted and f'"{unit.get("id")}": ' not in said:
                fault(f"{name}: {unit.get('id')} is {taken.get(unit.get('id'))}, not {wanted}")
    return counted(texts)


def come_back(kind, place, lang):
    """Files that have one language."""
    return counted([len(taken) for _, _, taken in of_kind(kind, place, "--lang", lang)])


def fluent():
    """The texts of Mozilla."""
    texts = []
    for name, data, taken in of_kind("fluent", FIREFOX, "--lang", "de"):
        # (a message, term or attribute begins so, and has its text there or on the next line)
        text = re.sub(r"(?m)^#.*$", "", data.decode())
        begun = len(re.findall(
            r"(?m)^(?:-?[a-zA-Z][\w-]*| +\.[a-zA-Z][\w-]*) *=(?! *\n +\.)", text))
        if len(taken) != begun:
            fault(f"{name}: {len(taken)} texts, not {begun}")
        texts.append(len(taken))
    return counted(texts)


def try_files(name, place, package, call, *words):
    """Tries the files of a package, if they are there."""
    if found(place):
        test(name, call, *words)
    else:
        tap.lacks(name, f"{place} (package {package})")


try_files("XLIFF of Symfony", SYMFONY, "php-symfony-validator", xliff)
try_files("properties of Java", JAVA, "openjdk-17-jre-headless",
          come_back, "properties", JAVA, "x-any")
try_files("strings of GNUstep", GNUSTEP, "gnustep-gui-common",
          come_back, "strings", GNUSTEP, "x-any")
try_files("properties of Firefox", FIREFOX, "firefox-esr-l10n-de",
          come_back, "properties", FIREFOX, "de")
try_files("Fluent of Firefox", FIREFOX, "firefox-esr-l10n-de", fluent)
tap.end()
