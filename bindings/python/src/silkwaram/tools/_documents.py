"""Documents, looked at row by row, and the language maps that edits are made of."""
import json
from typing import Any, Dict, Iterable, List, Optional, Tuple

from .._answers import Change, changes
from ._shared import compact, encoded

Texts = Optional[List[str]]
# What is looked for of a row that is written without blanks: longer ones are found by reading all.
LONGEST_ROW = 2**20


def rows_of(document: bytes) -> List[List[Any]]:
    """All rows of a site or a delta; none of what is no such document."""
    try:
        rows = json.loads(document)["cells"]
        return [it for it in rows if isinstance(it, list) and len(it) == 6]
    except (ValueError, KeyError, TypeError, RecursionError):
        return []


def row_of(document: bytes, id: str, language: str) -> Optional[List[Any]]:
    """The row of a message in a language, if a site has one."""
    # (as Silkwaram writes it, without reading the rest; texts of a label may begin like a row)
    at = document.find(encoded(f"[{compact(id)},{compact(language)},"))
    if at > 0:
        text = document[at : at + LONGEST_ROW].decode("utf-8", "ignore")
        try:
            row: List[Any] = json.JSONDecoder().raw_decode(text)[0]
            if len(row) == 6 and isinstance(row[2], int):
                return row
        except ValueError:
            pass
    return next((it for it in rows_of(document) if it[:2] == [id, language]), None)


def texts_of(document: bytes, id: str, language: str) -> Texts:
    """The texts of a message in a language; None if a site has no label of it."""
    row = row_of(document, id, language)
    return row[5] if row else None


def has_edit(document: bytes, edit: Change) -> bool:
    """Whether a site has an edit, or a later one of the same label."""
    row = row_of(document, edit.id, edit.language)
    return row is not None and edit.after is not None and tuple(row[2:5]) >= edit.after.stamp


# ---- Language maps

def _maps(labels: Iterable[Tuple[str, str, Texts]]) -> str:
    """The language maps of labels, each an id, a language and texts."""
    maps: Dict[str, Dict[str, List[str]]] = {}
    for id, language, texts in labels:
        if texts is not None:
            maps.setdefault(id, {})[language] = texts
    return compact(maps)


def edit_of(labels: Iterable[Tuple[str, str, Texts, Texts]]) -> bytes:
    """What `update` reads for an edit of labels, each an id, a language, and its texts as they are
    and as they are to be."""
    labels = list(labels)
    was = _maps((id, language, texts) for id, language, texts, _ in labels)
    return encoded(f"{was}\n{_maps((id, language, texts) for id, language, _, texts in labels)}")


def labels_to_confirm(
    outdated: bytes, language: str, ids: List[str]
) -> Tuple[Optional[bytes], List[str]]:
    """The labels in a language of what is older than its source, of some messages or of all, as
    language maps, or None if there are none; and those of the messages that are not older."""
    maps = json.loads(outdated)
    language = language.lower()
    chosen = {it: {language: maps[it][language]} for it in maps if not ids or it in ids}
    return (encoded(compact(chosen)) if chosen else None), [it for it in ids if it not in maps]


def edits_to_undo(lines: bytes, site: str, ids: List[str]) -> Optional[bytes]:
    """What `update` reads to take back the edits that a site made since a former state, by the
    lines of `changes`; empty if there are none, and None if that was no former state of the
    site."""
    found = changes(lines.decode())
    if not all(
        it.after and (it.before is None or it.before.stamp < it.after.stamp) for it in found
    ):
        return None
    own = [
        (it.id, it.language, it.after.texts, it.before.texts if it.before else None)
        for it in found
        if it.after and it.after.stamp.site == site and (not ids or it.id in ids)
    ]
    own = [it for it in own if it[2] != it[3]]
    return edit_of(own) if own else b""
