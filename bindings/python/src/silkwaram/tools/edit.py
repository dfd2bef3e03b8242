"""`lexicat-edit`: opens the labels of a site in an editor, and passes on what was changed. No lock
is held while the editor is open: what others edited meanwhile stays. lexicat-edit(1) has the
details.
"""
import json
import os
import re
import shlex
import shutil
import subprocess
import sys
import tempfile
from typing import Any, Dict, List, Optional, Tuple

from ._command import run
from ._locating import tell_refusal
from ._shared import REFUSED, Fault, Program, compact, encoded, print_lines
from .file import NOTHING, ExchangedFile

USAGE_TEXT = """\
Usage: lexicat-edit [--missing LANG] SITE [LANG..]

Opens the labels of the site in the file SITE in $VISUAL, $EDITOR or vi, all of
them or those in the languages LANG.., and saves what was changed. If a message
has no label in a LANG, it has null there: write the label in its place. A label
that is left out or made null is deleted. Prints a line for each change:
[ID,LANGUAGE,LABEL], where LABEL is null if it was deleted. A fourth member is
the label that somebody else had saved there meanwhile.

  --missing LANG    only the messages without a label in LANG, with null in its
                    place
  -h, --help        print this
  --version         print the version
"""
PROGRAM = Program("lexicat-edit", USAGE_TEXT)
BYTE_ORDER_MARK = b"\xef\xbb\xbf"
Maps = Dict[str, Dict[str, Any]]


def main(words: Optional[List[str]] = None) -> int:
    """Runs the program, and returns its status."""
    return PROGRAM.run(_main, words)


def _main(words: List[str]) -> int:
    missing = None
    if words and words[0].startswith("-"):
        option, equals, value = words[0].partition("=")
        if option == "--missing":
            missing, words = (value, words[1:]) if equals else ("".join(words[1:2]), words[2:])
            if not missing:
                PROGRAM.misused("no LANG")
        elif option == "--":
            words = words[1:]
        else:
            PROGRAM.misused(f"no option {words[0]}")
    if not words:
        PROGRAM.misused("SITE is needed")
    site, *languages = words
    for it in [*languages, *([missing] if missing else [])]:
        _expect_language(it)
    return _edit(site, [it.lower() for it in languages], missing and missing.lower())


def _expect_language(lang: str) -> None:
    """Ends the program if a word is no language tag."""
    ran = run(["pick", "--", "*", lang])
    if ran.status > NOTHING:
        tell_refusal(PROGRAM, ran.errors)
        raise Fault(f"not a language tag: {lang}", ran.status)


def _edit(site: str, languages: List[str], missing: Optional[str]) -> int:
    """Opens the labels, and passes on what was changed."""
    file = ExchangedFile(site, None, PROGRAM)
    maps = file.labels(missing)
    if not maps and missing:
        raise Fault(f"no message lacks a label in {missing}", NOTHING)
    draft = Draft(site, _shown(maps, languages, missing))
    try:
        while True:
            text = draft.edited()
            if text == draft.laid_out:
                PROGRAM.tell("nothing is changed")
                draft.end(0)
                return 0
            status, lines = _pass_on(file, draft.old, text)
            if status == 0 or not _again():
                draft.end(status)
                print_lines(lines)
                return status
    except BaseException:
        draft.end(1)
        raise


def _shown(maps: Maps, languages: List[str], missing: Optional[str]) -> Maps:
    """The labels of those languages, or of all, and the place to fill in."""
    shown = {}
    for id, labels in maps.items():
        those = {it: labels.get(it) for it in languages} if languages else dict(labels)
        if missing:
            those[missing] = labels.get(missing)
        shown[id] = those
    return shown


class Draft:
    """The text in the editor, and the labels of which it was made, in files of a folder of its
    own."""

    def __init__(self, site: str, old: Maps) -> None:
        self.site, self.old = site, old
        self.laid_out = encoded(json.dumps(old, ensure_ascii=False, indent=2) + "\n")
        self._folder = tempfile.mkdtemp(prefix="lexicat-edit.")
        self._name = os.path.join(self._folder, "labels.json")
        self._old_name = os.path.join(self._folder, "old")
        texts = {self._name: self.laid_out, self._old_name: encoded(compact(old) + "\n")}
        for name, text in texts.items():
            with open(name, "wb") as made:
                made.write(text)

    def edited(self) -> bytes:
        """What the editor leaves, without the byte order mark that some write."""
        editor = os.environ.get("VISUAL") or os.environ.get("EDITOR") or "vi"
        try:
            # (an interrupt is for the editor)
            done = subprocess.run(["sh", "-c", f'{editor} "$1"', editor, self._name], check=False)
        except KeyboardInterrupt:
            raise Fault(f"{editor} was interrupted") from None
        if done.returncode != 0:
            raise Fault(f"{editor} ended with status {done.returncode}")
        if not os.path.isfile(self._name):
            raise Fault(f"{editor} left no text")
        text = self._text()
        return text[len(BYTE_ORDER_MARK) :] if text.startswith(BYTE_ORDER_MARK) else text

    def _text(self) -> bytes:
        with open(self._name, "rb") as made:
            return made.read()

    def _is_as_laid_out(self) -> bool:
        try:
            return self._text() == self.laid_out
        except OSError:
            return True

    def end(self, status: int) -> None:
        """Keeps a text that was written and is not passed on, as the status says."""
        if status == 0 or self._is_as_laid_out():
            shutil.rmtree(self._folder, ignore_errors=True)
            return
        PROGRAM.tell(f"{self.site} is as it was, and your text is kept. To save it:")
        words = ["lexicat-file", self.site, "update", self._old_name, self._name]
        line = f"    {' '.join(map(shlex.quote, words))}\n"
        PROGRAM.tell_bytes(line.encode("utf-8", "surrogateescape"))


def _pass_on(file: ExchangedFile, old: Maps, text: bytes) -> Tuple[int, List[str]]:
    """Makes edits of what was changed, and returns the status and a line for each change."""
    if not text.strip():
        PROGRAM.tell("your text is empty, and nothing was saved; a text of {} deletes all")
        return REFUSED, []
    before = file.labels(None)
    try:
        file.update(encoded(compact(old)), text)
    except Fault as fault:
        if str(fault):
            PROGRAM.tell(str(fault))
        return fault.status, []
    return 0, _changes(old, before, json.loads(text))


def _texts(maps: Maps) -> Dict[Tuple[str, str], List[str]]:
    """The labels of language maps by their keys."""
    found = {}
    for id, labels in maps.items():
        if id.startswith("@") or not isinstance(labels, dict):
            continue
        for language, value in labels.items():
            texts = value if isinstance(value, list) else [value]
            texts = [it for it in texts if isinstance(it, str)]
            if texts:
                found[id, language.lower()] = texts
    return found


def _changes(old: Maps, before: Maps, new: Maps) -> List[str]:
    """A line for each label that differs between the old and the new language maps, with what the
    site had just before if that is neither."""
    olds, befores, news = map(_texts, (old, before, new))
    lines = []
    for key in sorted({*olds, *news}, key=lambda it: (encoded(it[0]), it[1])):
        if olds.get(key) == news.get(key):
            continue
        others = befores.get(key)
        seen = [] if others in (olds.get(key), news.get(key)) else [others]
        lines.append(compact([*key, news.get(key), *seen]))
    return lines


def _again() -> bool:
    sys.stderr.write("lexicat-edit: edit again? [Y/n] ")
    sys.stderr.flush()
    answer = sys.stdin.readline()
    return bool(answer) and not re.match("[nN]", answer)


if __name__ == "__main__":
    sys.exit(main())
