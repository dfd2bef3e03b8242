"""Refusals: docs/REFUSALS.md has each with its cause and what to do."""
import functools
import re
from typing import Any, Optional, Tuple

from ._calls import CALLS
from ._library import (
    FOUND, HAS_COUNT, HAS_OFFSET, HAS_ROW, NO_MEMORY, OF_SECOND, REFUSED, Answer, answered, library,
)

# What a call that reads a document says of these by the kind of document that it wants.
NOT_JSON = 19
SHAPE = 20


@functools.lru_cache(maxsize=None)
def _said(name: str, number: int) -> str:
    """What a call of the library says of the number of a refusal; empty if it is none."""
    answer = answered(getattr(library, name), number)
    return answer.text.decode() if answer.status == FOUND else ""


def _text(number: int, offset: Optional[int], count: Optional[int]) -> str:
    text = _said("sw_refusal_text", number) or "unknown"
    if offset is not None:
        text = text.replace("OFFSET", str(offset))
    return text if count is None else re.sub("INDEX|COUNT|PLACE", str(count), text)


class Refused(ValueError):
    """An argument is refused, by `number`, for which `code` is the word, as `clock-ahead`.

    `offset` is the place in the refused text, in bytes from 0, and `row` the row of a document,
    from 0. `count` is the place of a text that is too long in its label (11), how many texts a
    label with too many has (12), or the place of a clash among the cells of the receiving site
    (13). They are None if the refusal has none. `of_second` says that it is of the second of two
    documents, as the new maps of `Site.update`. `wanted` says what was wanted.
    """

    def __init__(
        self,
        number: int,
        offset: Optional[int] = None,
        row: Optional[int] = None,
        wanted: str = "",
        count: Optional[int] = None,
        of_second: bool = False,
    ) -> None:
        self.number, self.offset, self.row, self.count = number, offset, row, count
        self.of_second = of_second
        self.code = _said("sw_refusal_code", number)
        self.wanted = wanted or _said("sw_refusal", number)
        of = "" if row is None else f" in row {row}"
        document = " of the second document" if of_second else ""
        hint = f" ({self.wanted})" if self.wanted else ""
        super().__init__(f"refused {number}: {_text(number, offset, count)}{of}{document}{hint}")

    def __reduce__(self) -> Tuple[Any, ...]:
        given = (self.number, self.offset, self.row, self.wanted, self.count, self.of_second)
        return type(self), given


def _wanted(document: str) -> str:
    return document and f"{document} {'are' if document.endswith('s') else 'is'} wanted"


def checked(answer: Answer) -> Answer:
    """Returns the answer, or raises what its status says."""
    told = answer.told
    if answer.status == NO_MEMORY:
        raise MemoryError("out of memory")
    if answer.status == REFUSED:
        raise Refused(
            told.number,
            told.offset if told.given & HAS_OFFSET else None,
            told.row if told.given & HAS_ROW else None,
            _wanted(CALLS[answer.call]["reads"]) if told.number == SHAPE else "",
            told.count if told.given & HAS_COUNT else None,
            bool(told.given & OF_SECOND),
        )
    return answer
