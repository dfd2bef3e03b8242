"""`lexicat-file`: runs a command of lexicat on the file of a site, in place, so that nothing is
lost. lexicat-file(1) has the details.

The file is locked, the command runs over what it has, and its answer is put in place of the file:
written beside it, synced, and renamed over it. What changed is added to the log (`_log.py`).
"""
import json
import os
import re
import sys
from typing import Any, Callable, Dict, List, NamedTuple, Optional, Sequence, Tuple

from .._answers import status
from ._command import Ran, run, status_of
from ._documents import edits_to_undo, labels_to_confirm
from ._locating import Document, tell_refusal
from ._place import Place, one_line, read_documents
from ._shared import (
    LIMIT, MILLISECONDS_OF_A_DAY, REFUSED, USAGE, Fault, Program, clock, count_of, expect_output,
    print_lines, print_text,
)

USAGE_TEXT = """\
Usage: lexicat-file [--wait SECONDS] [--keep DAYS] SITE COMMAND [ARG..]

Runs a command of lexicat on the file SITE, in place.

To edit:
  new                     makes the file SITE
  put, delete             edit a label
  import [MAPS]           puts the labels of language maps into SITE
  update [OLD NEW]        makes the edits that lead from OLD to NEW language maps
  confirm [ID..]          gives a new time to labels that are older than their
                          source (--lang LANG --source LANG), but still right
  undo FORMER [ID..]      takes back the edits of SITE since its state in the file
                          FORMER; edits that came from other sites stay
To exchange:
  take [DELTA]            applies a delta
  sync OTHER              merges the sites in the files SITE and OTHER
  merge FILE..            merges the sites in other files into SITE
  summary, delta [SUMMARY]
                          print what others need
To see what happened:
  log [ID [LANG]]         what was edited, when, and by which site
  conflicts               texts of this site that another one overrode in the last
                          exchange (--since DAY for more; --mine ID LANG puts one
                          back)
  changes [LATER]         how a later state of SITE differs
  doctor                  whether all is well with SITE
To read:
  status, labels, export, missing, outdated, filter, lookup, bundle
To begin again after a loss:
  restore BACKUP --site NAME [OTHER..]
                          makes SITE, with a new name, from a backup and other
                          sites

ARG.. are the command's own: see lexicat help COMMAND. A document is read from
standard input if no file is named for it. Without --now the clock's
milliseconds are used; a time of more than a day ahead needs --force. take, sync
and merge refuse times of more than a day ahead of the clock, or after
--not-after (--no-limit applies them), and edits that SITE made and lacks, since
it was put back or shares its name (--no-check-own applies them).
delete does nothing if there is no such label (status 1), unless --force is
given. An edit holds the lock SITE.lock. If it fails, SITE is as it was, and the
status is not 0. What changed is added to the log, SITE.changes.

  --wait SECONDS    wait no longer than this for a lock, else end with status 6
  --keep DAYS       keep the lines of the log for so many days (400)
  --completion SHELL
                    print the completion for bash, zsh or fish
  -h, --help        print this
  --version         print the version
"""
PROGRAM = Program("lexicat-file", USAGE_TEXT)
# The status of a command that has nothing to do, or finds nothing.
NOTHING = 1
# What changes a site from its bytes to others.
Make = Callable[[bytes], bytes]


class Call(NamedTuple):
    """What the words of the command line say: the file, the command, and its words."""

    place: Place
    command: str
    words: List[str]

    @property
    def name(self) -> str:
        """The file as it was named."""
        return self.place.name


class Command(NamedTuple):
    """A command: what does it; its options here, each with how many words follow; how many files or
    ids it takes at least and at most, in words too; of what kind these are, the last of any more;
    and whether its words are passed on to lexicat."""

    does: Callable[[Call], int]
    options: Dict[str, int] = {}
    least: int = 0
    most: float = 0
    takes: str = "no file"
    names: Sequence[str] = ()
    is_passed_on: bool = False


def main(words: Optional[List[str]] = None) -> int:
    """Runs the program, and returns its status."""
    return PROGRAM.run(_main, words)


def _main(words: List[str]) -> int:
    if words[:1] in (["--complete"], ["--completion"]):
        return _complete(*words)
    wait, keep, words = _own_options(words)
    if len(words) < 2:
        PROGRAM.misused("SITE and COMMAND are needed")
    name, command, *rest = words
    if command not in COMMANDS:
        if name in COMMANDS:
            shown = "SITE" if command.startswith("-") else command
            PROGRAM.misused(f"SITE comes first: lexicat-file {shown} {name} ..")
        PROGRAM.misused(f"no command for a file: {command}")
    if {"-h", "--help"} & set(_before_texts(rest)):
        return _help(command, rest)
    return COMMANDS[command].does(Call(Place(PROGRAM, name, wait, keep), command, rest))


def _complete(option: str, *words: str) -> int:
    """Prints what a shell offers for the last of the words, or the script that asks for it."""
    from ._completing import SCRIPTS, completions

    if option == "--complete":
        print_lines(completions(list(words), COMMANDS, OWN))
    elif len(words) == 1 and words[0] in SCRIPTS:
        print_text(SCRIPTS[words[0]].encode())
    else:
        PROGRAM.misused(f"--completion takes one of {', '.join(SCRIPTS)}")
    return 0


def _help(command: str, words: List[str]) -> int:
    """Prints the help of a command, which lexicat has for its own."""
    if command in OWN:
        return PROGRAM.help()
    ran = run([command, *words])
    print_text(ran.output)
    PROGRAM.tell_bytes(ran.errors)
    return ran.status


def _own_options(words: List[str]) -> Tuple[Optional[int], Optional[int], List[str]]:
    """The options before SITE, and the words from there on."""
    values: Dict[str, Optional[int]] = {"--wait": None, "--keep": None}
    while words and words[0].startswith("-") and words[0] != "-":
        option, equals, value = words[0].partition("=")
        if words[0] == "--":
            words = words[1:]
            break
        if option not in values:
            PROGRAM.misused(f"no option {words[0]}")
        if not equals:
            value, words = (words[1] if len(words) > 1 else ""), words[1:]
        if not re.fullmatch("[0-9]{1,9}", value, re.ASCII):
            name = "SECONDS" if option == "--wait" else "DAYS"
            PROGRAM.misused(f"{name} is not a whole number")
        values[option], words = int(value), words[1:]
    return values["--wait"], values["--keep"], words


# ---- The words of a command

def _before_texts(words: List[str]) -> List[str]:
    """The words before a `--`, behind which none is an option."""
    return words[: words.index("--")] if "--" in words else words


def _value(option: str, words: List[str]) -> Optional[str]:
    """The value of an option among the words of a command, if it is there."""
    before = _before_texts(words)
    for word, following in zip(before, [*before[1:], ""]):
        name, equals, value = word.partition("=")
        if name == option:
            return value if equals else following
    return None


class Given(NamedTuple):
    """The options of a command with their values, and its files or ids."""

    options: Dict[str, List[str]]
    names: List[str]

    def value(self, option: str) -> Optional[str]:
        """The value of an option, if it is there."""
        return self.options[option][0] if option in self.options else None

    def now(self) -> List[str]:
        """The time of an edit, as an option of lexicat."""
        return ["--now", self.value("--now") or str(clock())]

    def limits(self) -> List[str]:
        """What is refused of other sites, as options of lexicat: edits after a time, and those of
        this site that it lacks."""
        limits = []
        if "--no-limit" not in self.options:
            latest = self.value("--not-after") or str(clock() + MILLISECONDS_OF_A_DAY)
            limits = ["--not-after", latest]
        return limits if "--no-check-own" in self.options else [*limits, "--check-own"]


def _given(call: Call) -> Given:
    """The options and the names among the words of a command."""
    command, words = COMMANDS[call.command], list(call.words)
    given = Given({}, [])
    while words:
        word = words.pop(0)
        if word == "--":
            given.names.extend(words)
            break
        if not word.startswith("-") or word == "-":
            given.names.append(word)
            continue
        option, equals, value = word.partition("=")
        count = command.options.get(option)
        if count is None or (equals and count != 1):
            PROGRAM.misused(f"{call.command} has no option {option}")
        if option in given.options:
            PROGRAM.misused(f"{option} is given twice")
        values = [value] if equals else words[:count]
        if len(values) < count or "" in values:
            PROGRAM.misused(f"{option} has no value")
        given.options[option] = values
        words = words if equals else words[count:]
    if "--no-limit" in given.options and "--not-after" in given.options:
        PROGRAM.misused("--no-limit and --not-after exclude one another")
    if not command.least <= len(given.names) <= command.most:
        PROGRAM.misused(f"{call.command} takes {command.takes}")
    return given


# ---- Running lexicat

def _run(words: Sequence[str], documents: Sequence[Document]) -> Ran:
    """Runs lexicat over documents, and tells what it says of a refusal."""
    ran = run(words, b"".join(it for _, it in documents))
    tell_refusal(PROGRAM, ran.errors, documents)
    return ran


def _answer(words: Sequence[str], documents: Sequence[Document], greatest: int = 0) -> bytes:
    """What lexicat prints; ends with its status if that is greater."""
    ran = _run(words, documents)
    if ran.status > greatest:
        raise Fault("", ran.status)
    return ran.output


def _edit(place: Place, make: Make, by: str, sites: Optional[List[str]] = None) -> int:
    """Puts what is made of the site in its place."""
    place.expect_editable()
    with place.locked():
        # (it may be gone by now)
        place.expect_editable()
        old = place.read()
        place.check_not_older(old)
        place.replace(old, make(old), by, sites)
    return 0


def _joining(call: Call, words: List[str], *documents: Document) -> Make:
    """Makes of a site what a command makes of it and of documents."""
    return lambda old: _answer(words, [(call.name, one_line(old)), *documents])


# ---- Commands that print

def _ask(call: Call) -> int:
    """Prints what a command says of the site."""
    expect_output()
    return _printed([call.command, *call.words], [(call.name, call.place.read())])


def _ask_with_document(call: Call) -> int:
    """The same of a command that reads a document beside the site."""
    expect_output()
    given = _given(call)
    site = call.place.read()
    if call.command == "delta":
        call.place.check_not_older(site)
    documents = read_documents(given.names or ["-"], PROGRAM)
    return _printed([call.command], [(call.name, one_line(site)), *documents])


def _printed(words: List[str], documents: List[Document]) -> int:
    ran = _run(words, documents)
    print_text(ran.output)
    return ran.status


def _log(call: Call) -> int:
    """Prints the lines of the log."""
    expect_output()
    return _printed_lines(_history().log_lines(call.place.log, *_given(call).names))


def _history() -> Any:
    """What looks at the log. (An edit does not, and would be later by its import.)"""
    from . import _history

    return _history


def _printed_lines(lines: List[str]) -> int:
    print_lines(lines)
    return 0 if lines else NOTHING


def _doctor(call: Call) -> int:
    """Prints whether all is well with the site."""
    expect_output()
    _given(call)
    site = call.place.read()
    line = _answer(["status"], [(call.name, site)])
    lines, is_well = _history().doctor(call.place, site, status(line.decode()))
    print_lines(lines)
    return 0 if is_well else 1


# ---- Commands that edit

def _new(call: Call) -> int:
    """Makes the file of a new site."""
    call.place.expect_none()
    made = _answer(["new", *call.words], [])
    with call.place.locked():
        call.place.expect_none()
        call.place.make(made)
    return 0


def _put(call: Call) -> int:
    """Puts or deletes a label."""
    force, words = _without_force(call.words)
    language = _value("--lang", words)
    if language is None or _value("--id", words) is None:
        text = " TEXT.." if call.command == "put" else ""
        raise Fault(
            f"the form is lexicat-file {call.name} {call.command} --id ID --lang LANG{text}", USAGE
        )
    time = _value("--now", words)
    if time is None:
        words = ["--now", str(clock()), *words]
    elif not force:
        _expect_near(time)

    def make(old: bytes) -> bytes:
        new = _answer([call.command, *words], [(call.name, old)])
        _warn_of_language(language, old, new)
        if call.command == "delete" and not force and _labels(old) == _labels(new):
            raise Fault(
                f"{call.name}: has no such label, and is as it was (use --force if other sites may"
                " have it)", NOTHING,
            )
        return new

    return _edit(call.place, make, call.command)


def _without_force(words: List[str]) -> Tuple[bool, List[str]]:
    """Whether `--force` is among the words before their `--`, and the others."""
    before = _before_texts(words)
    others = [it for it in before if it != "--force"]
    return len(others) < len(before), [*others, *words[len(before) :]]


def _expect_near(time: str) -> None:
    """Ends the program if the time of an edit is more than a day ahead of the clock."""
    is_time = re.fullmatch(r"\+?0*[0-9]{1,20}", time, re.ASCII)
    if is_time and int(time) > clock() + MILLISECONDS_OF_A_DAY:
        raise Fault(
            f"--now {time} is more than a day ahead of the clock; other sites would refuse the"
            " edit, and all that are sent with it (--force overrides this)", REFUSED,
        )


def _warn_of_language(language: str, old: bytes, new: bytes) -> None:
    """Says that a new language has a first subtag of 5 to 8 letters, as `english` has: no browser
    asks for it (RFC 5646, section 2.2.1, reserves them)."""
    first = language.partition("-")[0]
    key = f'","{first.lower()}'.encode()
    if re.fullmatch("[A-Za-z]{5,8}", first, re.ASCII) and key not in old and key in new:
        PROGRAM.tell(
            f"{first} is now a language of this site, but no language is called so, and no browser"
            " asks for it (English is en)"
        )


def _labels(site: bytes) -> Optional[int]:
    """How many labels a site has."""
    it = status_of(site)
    return it.labels if it else None


def _join(call: Call) -> int:
    """An edit by documents, which are read to their end before the lock is taken, so that nobody
    waits for a slow writer."""
    given = _given(call)
    if call.command == "update" and len(given.names) == 1 != given.names.count("-"):
        PROGRAM.misused(f"update takes {COMMANDS['update'].takes}")
    call.place.expect_editable()
    documents = read_documents(given.names or ["-"], PROGRAM)
    if call.command == "take":
        make = _joining(call, ["take", *given.limits()], *documents)
        return _edit(call.place, make, " ".join(["take", *given.names]), [])
    # (old maps may be laid out on several lines)
    shown = [(name, one_line(it)) for name, it in documents[:-1]] + documents[-1:]
    return _edit(call.place, _joining(call, [call.command, *given.now()], *shown), call.command)


def _merge(call: Call) -> int:
    """Takes in the sites in other files."""
    given = _given(call)
    for it in given.names:
        Place(PROGRAM, it).expect_readable()
    sites: List[str] = []
    make = lambda old: _merged(call, old, given, sites)
    return _edit(call.place, make, " ".join(["merge", *given.names]), sites)


def _merged(call: Call, own: bytes, given: Given, sites: List[str]) -> bytes:
    """The site after it was merged with those in the files, with as many at once as one input
    takes; the names of these are added to `sites`."""
    known = {_site_of(own): call.name}
    documents: List[Document] = [(call.name, one_line(own))]

    def merge_read() -> None:
        ran = _run(["merge", *given.limits()], documents)
        if ran.status != 0:
            first = documents[1][0] if len(documents) > 1 else ""
            PROGRAM.tell(f"{call.name} is as it was: it is document 1, and {first} document 2")
            raise Fault("", ran.status)
        documents[:] = [(call.name, ran.output)]

    for name in given.names:
        other = Place(PROGRAM, name).document()
        site = _site_of(other[1])
        if site is not None:
            if site in known:
                _refuse_copy(known[site], name, site)
            known[site] = name
            sites.append(site)
        if len(documents) > 1 and sum(len(it) for _, it in [*documents, other]) >= LIMIT:
            merge_read()
        documents.append(other)
    merge_read()
    return documents[0][1]


def _site_of(document: bytes) -> Optional[str]:
    """The name of a site; None of what is none."""
    it = status_of(document)
    return it.site if it else None


def _refuse_copy(name: str, other: str, site: str) -> None:
    """Ends the program, as two files are one site: one is a copy of the other."""
    PROGRAM.tell(
        f"{name} and {other} are both site {site}; if both are edited, edits are lost"
    )
    raise Fault(
        f"make a site with another name (lexicat-file NEW new --site NAME), merge {other} into it,"
        f" and use that in place of {other}; its first sync with {name} needs --no-check-own",
        REFUSED,
    )


def _sync(call: Call) -> int:
    """Merges two sites, and puts both in place. The locks are taken in one order, whichever file is
    named first."""
    given = _given(call)
    own = call.place
    other = Place(PROGRAM, given.names[0], own.wait, own.log.keep)
    both = (own, other)
    for it in both:
        it.expect_editable()
    if own.is_same_file(other):
        PROGRAM.misused(f"{own.name} and {other.name} are one file")
    first, second = sorted(both, key=lambda it: os.fsencode(it.path))
    with first.locked(), second.locked():
        for it in both:
            it.expect_editable()
        texts = [it.read() for it in both]
        sites = [_site_of(it) for it in texts]
        if sites[0] is not None and sites[0] == sites[1]:
            _refuse_copy(own.name, other.name, sites[0])
        for it, text in zip(both, texts):
            it.check_not_older(text)
        documents = [(it.name, one_line(text)) for it, text in zip(both, texts)]
        made = _answer(["sync", *given.limits()], documents).splitlines(keepends=True)
        own.replace(texts[0], made[0], f"sync {other.name}", [str(sites[1])])
        try:
            other.replace(texts[1], made[1], f"sync {own.name}", [str(sites[0])])
        except Fault as fault:
            raise Fault(f"{fault}, and {own.name} has both: run sync again", fault.status) from None
    return 0


def _confirm(call: Call) -> int:
    """Puts labels once more that are older than their source, all of them or those of some
    messages."""
    given = _given(call)
    language, source = given.value("--lang"), given.value("--source")
    if language is None or source is None:
        PROGRAM.misused(f"confirm needs --{'source' if language else 'lang'} LANG")

    def make(old: bytes) -> bytes:
        words = ["outdated", f"--lang={language}", f"--source={source}"]
        outdated = _answer(words, [(call.name, old)], NOTHING)
        maps, others = labels_to_confirm(outdated, str(language), given.names)
        for it in others:
            PROGRAM.tell(f"{it}: has no label older than its source")
        if maps is None:
            raise Fault(
                f"{call.name}: no label of {language} is older than that of {source}: nothing is"
                " done", NOTHING,
            )
        return _joining(call, ["import", *given.now()], ("the labels", maps))(old)

    return _edit(call.place, make, "confirm")


def _undo(call: Call) -> int:
    """Takes back the site's own edits since a former state, all of them or those of some messages.
    A label that another site has edited since stays."""
    given = _given(call)
    former, *ids = given.names
    before = Place(PROGRAM, former).document()

    def make(old: bytes) -> bytes:
        lines = _answer(["changes"], [before, (call.name, old)], NOTHING)
        site = _site_of(old)
        edits = edits_to_undo(lines, str(site), ids) if site == _site_of(before[1]) else None
        if edits is None:
            raise Fault(f"{former}: is not a former state of {call.name}", REFUSED)
        if not edits:
            raise Fault(
                f"{call.name}: has no edits of its own since {former}: nothing is done", NOTHING
            )
        return _joining(call, ["update", *given.now()], ("the labels", edits))(old)

    return _edit(call.place, make, f"undo {former}")


def _conflicts(call: Call) -> int:
    """Prints what others overrode, or puts a text of this site back."""
    given = _given(call)
    log, site = call.place.log, call.place.read()
    name = str(_site_of(site))
    if "--mine" not in given.options:
        expect_output()
        return _printed_lines(_history().conflicts(log, site, name, given.value("--since")))
    id, language = given.options["--mine"]

    def make(old: bytes) -> bytes:
        edits = _history().edit_to_have_mine(log, old, name, id, language.lower())
        if edits is None:
            raise Fault(
                f"{call.name}: no text of this site for {id} in {language} was overridden", NOTHING
            )
        return _joining(call, ["update", *given.now()], ("the labels", edits))(old)

    return _edit(call.place, make, "conflicts --mine")


def _restore(call: Call) -> int:
    """Makes the site, of a new name, of a backup and of the sites of others."""
    given = _given(call)
    name = given.value("--site")
    if name is None:
        PROGRAM.misused("restore needs --site NAME, a name that no site has had")
    call.place.expect_none()
    made = _answer(["new", "--site", str(name)], [])
    sites: List[str] = []
    with call.place.locked():
        call.place.expect_none()
        merged = _merged(call, made, given, sites)
        if name in sites:
            raise Fault(f"a site {name} is among those: choose a new name", REFUSED)
        call.place.make(merged)
    PROGRAM.tell(f"{call.name}: is site {name} now, with {count_of(_labels(merged) or 0, 'label')}")
    return 0


class ExchangedFile:
    """The file of a site, as another program of this package asks and edits it."""

    def __init__(self, name: str, wait: Optional[float], program: Program) -> None:
        self._call = Call(Place(program, name, wait), "", [])

    def _asked(self, words: List[str], *others: Document) -> bytes:
        site = self._call.place.read()
        self._call.place.check_not_older(site)
        return _answer(words, [(self._call.name, one_line(site)), *others])

    def summary(self) -> bytes:
        """The summary of the site, with digests of its labels: a text that differs under one
        timestamp is sent then, and refused as a duplicate timestamp (13)."""
        return self._asked(["summary", "--labels"])

    def delta(self, name: str, summary: bytes) -> bytes:
        """The delta for the owner of a summary, which is called by a name."""
        return self._asked(["delta"], (name, summary))

    def labels(self, missing: Optional[str]) -> Any:
        """All labels of the site, or those of the messages without one of a language."""
        words = ["export"] if missing is None else ["missing", "--lang", missing]
        return json.loads(_answer(words, [(self._call.name, self._call.place.read())], NOTHING))

    def update(self, old: bytes, new: bytes) -> None:
        """Makes the edits that lead from language maps to others."""
        documents = ("the labels as they were", old + b"\n"), ("your text", new)
        words = ["update", *Given({}, []).now()]
        _edit(self._call.place, _joining(self._call, words, *documents), "edit")

    def take(self, name: str, delta: bytes) -> None:
        """Takes in a delta, which is called by a name. A delta of nothing changes nothing."""
        make = _joining(self._call, ["take", *Given({}, []).limits()], (name, delta))
        _edit(self._call.place, make, f"take {name}", [])


MANY = float("inf")
NOW = {"--now": 1}
LIMITS = {"--not-after": 1, "--no-limit": 0}
TAKING = {**LIMITS, "--no-check-own": 0}
# Those that lexicat has not, or not for files, and what they are for.
OWN = {
    "merge": "merges the sites in other files into the site",
    "confirm": "gives a new time to labels that are still right",
    "undo": "takes back the edits of the site since a former state",
    "restore": "makes the site from a backup and other sites",
    "log": "what was edited, when, and by which site",
    "conflicts": "texts of this site that another one overrode",
    "doctor": "whether all is well with the site",
}
COMMANDS = {
    "new": Command(_new, is_passed_on=True),
    "put": Command(_put, {"--force": 0}, is_passed_on=True),
    "delete": Command(_put, {"--force": 0}, is_passed_on=True),
    "import": Command(_join, NOW, 0, 1, "one file, or none", ["file"]),
    "update": Command(_join, NOW, 0, 2, "two files, or none", ["file"]),
    "take": Command(_join, TAKING, 0, 1, "one file, or none", ["file"]),
    "sync": Command(_sync, TAKING, 1, 1, "one other file", ["file"]),
    "merge": Command(_merge, TAKING, 1, MANY, "the files of other sites", ["file"]),
    "confirm": Command(_confirm, {**NOW, "--lang": 1, "--source": 1}, 0, MANY, names=["id"]),
    "undo": Command(_undo, NOW, 1, MANY, "the file of a former state", ["file", "id"]),
    "restore": Command(
        _restore, {**LIMITS, "--site": 1}, 1, MANY, "the file of a backup", ["file"]
    ),
    **dict.fromkeys(
        ("status", "labels", "export", "missing", "outdated", "filter", "lookup", "bundle",
         "summary"),
        Command(_ask, is_passed_on=True),
    ),
    "delta": Command(_ask_with_document, {}, 0, 1, "one file, or none", ["file"]),
    "changes": Command(_ask_with_document, {}, 0, 1, "one file, or none", ["file"]),
    "log": Command(_log, {}, 0, 2, "an id and a language at most", ["id", "lang"]),
    "conflicts": Command(_conflicts, {**NOW, "--since": 1, "--mine": 2}),
    "doctor": Command(_doctor),
}

if __name__ == "__main__":
    sys.exit(main())
