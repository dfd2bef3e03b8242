"""Labels for the programs that read and write files: language maps, sites, and what fits into
neither."""
import json
import re
from typing import Any, Callable, Dict, NamedTuple, Optional, Sequence, Tuple

from ._shared import Refused, compact, count_of, quoted, read_file

NOTES, FLAGS = "x-note", "x-flags"
TEXT_LIMIT, TEXTS_LIMIT, ID_LIMIT = 65535, 64, 128
TAG = re.compile(r"[a-z0-9]{1,8}(-[a-z0-9]{1,8})*|@none", re.IGNORECASE)
CONTROLS = re.compile(r"[\x00-\x1f\x7f]")
# The status if something was left out.
MISFITS = 7
Texts = Tuple[str, ...]


class Misfit(Exception):
    """Why one message is left out."""


class Misfits:
    """Names what is left out, and counts it."""

    def __init__(self, tell: Callable[[str], None]) -> None:
        self.tell_line, self.count = tell, 0

    def tell(self, message: str, words: object) -> None:
        """Names a message."""
        self.count += 1
        self.tell_line(f"{quoted(message)}: {words}")

    def status(self) -> int:
        """The status to end with."""
        return MISFITS if self.count else 0


class Label(NamedTuple):
    """A live label: the time of its last edit, and its texts."""

    time: int
    texts: Texts


def counted(texts: Sequence[object]) -> str:
    """How many texts, in words."""
    return count_of(len(texts), "text")


def is_cell(cell: Any) -> bool:
    """Whether a value has the shape of a cell, as far as it is looked at here."""
    return (
        isinstance(cell, list)
        and len(cell) == 6
        and isinstance(cell[0], str)
        and isinstance(cell[1], str)
        and isinstance(cell[2], int)
        and (
            cell[5] is None
            or isinstance(cell[5], list)
            and cell[5] != []
            and all(isinstance(text, str) for text in cell[5])
        )
    )


def site_in(data: bytes, name: str) -> Tuple[str, Dict[str, Dict[str, Label]]]:
    """The name of a site, and of each message its live labels by language."""
    try:
        site = json.loads(data.decode("utf-8"))
    except (ValueError, RecursionError):
        raise Refused(f"{name}: not JSON") from None
    if not (
        isinstance(site, dict)
        and site.get("kind") == "site"
        and isinstance(site.get("cells"), list)
        and all(map(is_cell, site["cells"]))
    ):
        raise Refused(f"{name}: not a site (lexicat status says where the fault is)")
    messages: Dict[str, Dict[str, Label]] = {}
    for message, lang, time, _, _, texts in site["cells"]:
        if texts is not None:
            messages.setdefault(message, {})[lang.lower()] = Label(time, tuple(texts))
    return str(site.get("site")), messages


def read_site(name: Optional[str]) -> Tuple[str, Dict[str, Dict[str, Label]]]:
    """The same of a file, or of standard input."""
    return site_in(read_file(name), name or "standard input")


def check_label(texts: Sequence[str]) -> None:
    """Refuses what no label may be."""
    if len(texts) > TEXTS_LIMIT:
        raise Misfit(f"it has {counted(texts)}, and a label has at most {TEXTS_LIMIT}")
    if any(len(text.encode()) > TEXT_LIMIT for text in texts):
        raise Misfit(f"it has a text of more than {TEXT_LIMIT} bytes")


def language_maps(messages: Dict[str, Dict[str, Any]]) -> bytes:
    """Labels by message and language as language maps, on a line."""
    maps: Dict[str, Dict[str, Any]] = {}
    for message, labels in sorted(messages.items()):
        if labels:
            maps[message] = {
                lang: texts[0] if len(texts) == 1 else list(texts)
                for lang, texts in sorted(labels.items())
            }
    return (compact(maps) + "\n").encode("utf-8")
