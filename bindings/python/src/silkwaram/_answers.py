"""What questions to the library and to a site answer."""
import json
from typing import Any, Dict, List, NamedTuple, Optional, Union

# Labels by message and language: a label of one text is that text, one of several a list.
LanguageMaps = Dict[str, Dict[str, Union[str, List[str]]]]


class Label(NamedTuple):
    """The label of a message: its language, its texts, and whether it is that of the default."""

    language: str
    texts: List[str]
    is_default: bool


class Choice(NamedTuple):
    """A label that a reader takes, with its weight in thousandths."""

    language: str
    weight: int
    texts: List[str]


class TagChoice(NamedTuple):
    """A tag that a reader takes, with its weight in thousandths."""

    tag: str
    weight: int


class Stamp(NamedTuple):
    """When and where an edit was made: its time, its site, and its count at that time."""

    time: int
    site: str
    count: int


class Cell(NamedTuple):
    """What a site has of a message in a language: the stamp of the last edit, and its label.

    `texts` is None if the label was deleted.
    """

    stamp: Stamp
    texts: Optional[List[str]]


class Change(NamedTuple):
    """A cell that differs between two sites: as the one has it, and the other; None if it has
    none."""

    id: str
    language: str
    before: Optional[Cell]
    after: Optional[Cell]


class Status(NamedTuple):
    """How large a site is: its cells, how many of them have a label, and its latest stamp."""

    site: str
    cells: int
    labels: int
    last: Optional[Stamp]


def label(line: str) -> Label:
    """The label of a line of `lookup`."""
    how, language, texts = line.split(" ", 2)
    return Label(language, json.loads(texts), how == "default")


def choices(lines: str) -> List[Choice]:
    """The labels of the lines of `filter`."""
    rows = [line.split(" ", 2) for line in lines.split("\n")[1:-1]]
    return [Choice(language, int(weight), json.loads(texts)) for language, weight, texts in rows]


def tag_choices(lines: str) -> List[TagChoice]:
    """The tags of the lines of `filter_tags`."""
    rows = [line.rsplit(" ", 1) for line in lines.split("\n")[1:-1]]
    return [TagChoice(tag, int(weight)) for tag, weight in rows]


def _cell(value: Optional[List[Any]]) -> Optional[Cell]:
    if value is None:
        return None
    time, site, count, texts = value
    return Cell(Stamp(time, site, count), texts)


def change(row: List[Any]) -> Change:
    """The change of a row of `changes`; a ValueError or a TypeError if it is none."""
    id, language, before, after = row
    return Change(id, language, _cell(before), _cell(after))


def changes(lines: str) -> List[Change]:
    """The changes of the lines of `changes`, of which the first one counts the others."""
    return [change(json.loads(line)) for line in lines.split("\n")[1:-1]]


def counts(lines: str) -> Dict[str, int]:
    """The counts of `labels N`, and then lines `LANGUAGE COUNT`."""
    rows = (line.split() for line in lines.splitlines()[1:])
    return {language: int(count) for language, count in rows}


def status(line: str) -> Status:
    """The status of a site's status line: `site NAME cells N labels N last TIME NAME COUNT`."""
    _, name, _, cells, _, labels, _, *last = line.split()
    stamp = None if last == ["none"] else Stamp(int(last[0]), last[1], int(last[2]))
    return Status(name, int(cells), int(labels), stamp)
