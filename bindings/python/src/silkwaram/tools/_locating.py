"""What a refusal is about: the file, the message, and what to do."""
import json
import re
from typing import Any, List, Optional, Sequence, Tuple

from ._command import run
from ._shared import Program, compact, moment_of

# A document as a command reads it, with its name.
Document = Tuple[str, bytes]
LINE = re.compile(r"^refused (\d+): (.*?)(?: in row (\d+))?(?: of document (\d+))?$", re.MULTILINE)
NOT_JSON, CLASH, AHEAD, OWN_MISSING = 19, 13, 29, 30


def tell_refusal(program: Program, errors: bytes, documents: Sequence[Document] = ()) -> None:
    """Writes what lexicat says of a refusal, what to do about it, and which of the documents, and
    which message of it, it is about."""
    if not errors:
        return
    found = LINE.search(errors.decode("utf-8", "replace"))
    program.tell_bytes(errors + (_remedy(found[1]) if found else b""))
    words = _subject(found, documents) if found and documents else None
    if words:
        program.tell(words)


def _remedy(number: str) -> bytes:
    """What to do about a refusal of a number, on a line."""
    lines = run(["explain", number]).output.splitlines(keepends=True)
    return next((it for it in lines if it.startswith(b"what to do: ")), b"")


def _subject(found: "re.Match[str]", documents: Sequence[Document]) -> Optional[str]:
    """Which document and which message a refusal is about, in words."""
    number, words, row, place = int(found[1]), found[2], found[3], found[4]
    document: Optional[Document] = documents[0]
    if number == CLASH and place is None:
        row = words.rpartition(" ")[2]
    else:
        document = None if place is None else _document(documents, int(place))
    if document is None:
        return None
    name, text = document
    if number == NOT_JSON:
        return f"{name}: {_fault_of_json(text)}"
    if row is None:
        return f"{name}: {words}"
    its_row = _row(text, int(row))
    return f"{name}, {_message(its_row, row)}: {_why(number, words, its_row)}"


def _document(documents: Sequence[Document], place: int) -> Optional[Document]:
    """The document at a place, from 1. What is behind the last one is in it, as on standard
    input."""
    if place <= len(documents):
        return documents[place - 1]
    name, text = documents[-1]
    parts = text.split(b"\n")
    at = place - len(documents)
    return (name, parts[at]) if at < len(parts) else None


def _fault_of_json(text: bytes) -> str:
    """Where a text is no JSON."""
    if not text.strip():
        return "it is empty"
    try:
        json.loads(text)
    except UnicodeDecodeError as fault:
        return f"byte {fault.start} is not UTF-8"
    except json.JSONDecodeError as fault:
        return f"line {fault.lineno}, column {fault.colno}: {fault.msg}"
    except (ValueError, RecursionError):
        pass
    return "it is not JSON"


def _row(text: bytes, place: int) -> List[Any]:
    """A row of a document, or that of a message of language maps; empty if there is none."""
    try:
        document = json.loads(text)
        rows = next(
            (document[it] for it in ("cells", "stamps") if isinstance(document.get(it), list)),
            [[id] for id in document],
        )
        return rows[place] if isinstance(rows[place], list) else []
    except (ValueError, AttributeError, IndexError, RecursionError):
        return []


def _message(row: List[Any], place: str) -> str:
    """The message of a row, in words."""
    if not row or not isinstance(row[0], str):
        return f"row {place}"
    language = f" in {row[1]}" if len(row) > 1 and isinstance(row[1], str) else ""
    return f"message {compact(row[0])}{language}"


def _why(number: int, words: str, row: List[Any]) -> str:
    """Why a row is refused, in words."""
    if number == AHEAD and len(row) > 2:
        when = moment_of(row[2])
        return f"its time, {when}, is more than a day ahead of this clock, or after the limit"
    if number == OWN_MISSING:
        return (
            "this site made that edit, and lacks it: the site was put back to an older copy, or"
            " another site has its name (--no-check-own applies the edit)"
        )
    if number == CLASH:
        return (
            "the two sites have different texts under one timestamp, so a site was put back, or two"
            " sites have one name"
        )
    return words
