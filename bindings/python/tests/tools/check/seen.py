"""Sees that each line of lexicat-check names what msgfmt --check-format or pofilter finds too, and
prints the others. The source has a format that msgfmt takes it for, or it is the markup, the
brackets or the blanks that pofilter looks at.

usage: seen.py LABELS FOUND FOLDER    the labels as language maps, the lines, and the PO files
"""
import glob
import json
import os
import re
import subprocess
import sys
import tempfile

FORMATS = ["c-format", "python-format", "python-brace-format", "objc-format", "ruby-format"]
TESTS = ["xmltags", "printf", "variables", "brackets", "startwhitespace", "endwhitespace",
         "newlines", "blank"]


def header(rule):
    """The header of a PO file with a plural rule."""
    return ('msgid ""\nmsgstr ""\n"Content-Type: text/plain; charset=UTF-8\\n"\n'
            f'"Plural-Forms: {rule}\\n"\n\n')


def entry(number, sources, texts, flag=""):
    """An entry of a PO file."""
    def quoted(text):
        return json.dumps(text, ensure_ascii=False).replace("\\u", "\\\\u")

    lines = [f"#, {flag}"] if flag else []
    lines += [f'msgctxt "{number}"', f"msgid {quoted(sources[0])}"]
    if len(sources) == 1:
        lines += [f"msgstr {quoted(texts[0])}"]
    else:
        lines += [f"msgid_plural {quoted(sources[1])}"]
        lines += [f"msgstr[{place}] {quoted(text)}" for place, text in enumerate(texts)]
    return "\n".join(lines) + "\n\n"


def is_taken(text, room):
    """Whether msgfmt takes a PO file."""
    with open(f"{room}/one.po", "w", encoding="utf-8") as file:
        file.write(text)
    words = ["msgfmt", "--check-format", "-o", "/dev/null", f"{room}/one.po"]
    return subprocess.run(words, capture_output=True, check=False).returncode == 0


def is_seen_by_msgfmt(sources, texts, rule, room):
    """Whether msgfmt refuses the texts in the first format of which the sources have placeholders,
    or, where they have none, in one."""
    def takes(texts, flag):
        return is_taken(header(rule) + entry(0, sources, texts, flag), room)

    # (line feeds at the ends are looked at in each)
    bare = re.sub(r"[^\n](.*[^\n])?", "x", sources[-1], flags=re.DOTALL)
    formats = [flag for flag in FORMATS if takes([sources[-1]] * len(texts), flag)]
    first = next((flag for flag in formats if not takes([bare] * len(texts), flag)), None)
    return any(not takes(texts, flag) for flag in ([first] if first else formats))


def seen_by_pofilter(labels, rule, room):
    """Those of numbered labels of one language that pofilter names."""
    os.mkdir(f"{room}/in")
    with open(f"{room}/in/all.po", "w", encoding="utf-8") as file:
        file.write(header(rule) + "".join(entry(*label) for label in labels))
    words = ["pofilter", "--progress=none", *(f"--test={test}" for test in TESTS)]
    subprocess.run([*words, f"{room}/in", f"{room}/out"], check=True, capture_output=True)
    if not os.path.exists(f"{room}/out/all.po"):
        return set()
    with open(f"{room}/out/all.po", encoding="utf-8") as file:
        return set(map(int, re.findall(r'^msgctxt "(\d+)"', file.read(), re.MULTILINE)))


def rules_of(folder):
    """The plural rules of the PO files of a folder, by tags."""
    rules = {}
    for path in glob.glob(f"{folder}/*.po"):
        with open(path, encoding="utf-8", errors="replace") as file:
            text = file.read().replace('"\n"', "")
        lang = os.path.basename(path)[:-3].lower().replace("_", "-").replace("@latin", "-latn")
        found = re.search(r"Plural-Forms: *(nplurals[^\\]*)\\n", text)
        rules[lang.replace("@", "-")] = found[1] if found else "nplurals=2; plural=n != 1;"
    return rules


def main(labels, found, folder):
    with open(labels, encoding="utf-8") as file:
        labels = json.load(file)
    rules, left, lines = rules_of(folder), {}, 0
    with open(found, encoding="utf-8") as file, tempfile.TemporaryDirectory() as room:
        for lines, line in enumerate(file, 1):
            message, lang, words = re.match(
                r'("(?:[^"\\]|\\.)*") (\S+): (?:text \d+ )?(\w+)', line).groups()
            maps = labels[json.loads(message)]
            sources, texts = (
                [it] if isinstance(it, str) else it for it in (maps["en"], maps[lang]))
            rule = rules.get(lang, "nplurals=2; plural=n != 1;")
            # (blanks are for pofilter)
            if words not in ("lacks", "has") or not is_seen_by_msgfmt(sources, texts, rule, room):
                left.setdefault((lang, rule), []).append((line, (lines, sources, texts)))
    faults, seen = 0, lines - sum(map(len, left.values()))
    for (lang, rule), named in left.items():
        with tempfile.TemporaryDirectory() as room:
            numbers = seen_by_pofilter([label for _, label in named], rule, room)
        for line, label in named:
            if label[0] not in numbers:
                faults += 1
                print(f"{lang}: {line.strip()}\n  {label[1]}\n  {label[2]}", file=sys.stderr)
    print(f"{lines} lines, {seen} of them by msgfmt, {lines - seen - faults} by pofilter")
    return faults > 0


if __name__ == "__main__":
    sys.exit(main(*sys.argv[1:]))
