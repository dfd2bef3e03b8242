"""Arguments as the calls of the library take them."""
import ctypes
import functools
import mmap
import operator
import time
from typing import Any, Iterable, List, Optional, Union

from ._library import EXTENDED, LENIENT, WIDEN, Rules

# A text, or its bytes. (Other objects with the buffer protocol are taken too.)
Text = Union[str, bytes, bytearray, memoryview, mmap.mmap]
MAX_PLACE: int = 2 ** (8 * ctypes.sizeof(ctypes.c_size_t)) - 1
MAX_TIME: int = 2**64 - 1


def wrong_type(name: str, wanted: str, value: object) -> TypeError:
    """The fault of an argument that has another type."""
    return TypeError(f"{name} must be {wanted}, not {type(value).__name__}")


def _bytes(name: str, value: Any) -> bytes:
    """The bytes of an argument: of a buffer a copy, which nobody can change during the call."""
    if isinstance(value, bytes):
        return value
    if isinstance(value, str):
        # (half a surrogate pair is not UTF-8 then, and is refused as such)
        return value.encode("utf-8", "surrogatepass")
    try:
        view = memoryview(value)
    except TypeError:
        raise wrong_type(name, "str or bytes-like", value) from None
    with view:
        return view.tobytes()


def words(**texts: Any) -> List[Any]:
    """Texts as the calls take them, each with its length."""
    taken: List[Any] = []
    for name, text in texts.items():
        given = _bytes(name, text)
        taken += [given, len(given)]
    return taken


def given_or(text: Optional[Text], without: str) -> Text:
    """The text, or another one if there is none."""
    return without if text is None else text


@functools.lru_cache(maxsize=64)
def _rules(offer: bytes, fallbacks: bytes) -> Rules:
    """The rules of two texts, which they keep. They are made once for many questions."""
    return Rules(offer, len(offer), fallbacks, len(fallbacks))


def rules(offer: Optional[Text], fallbacks: Optional[Text] = None, without: str = "") -> Rules:
    """The rules of a question as the calls take them. `without` is what no offer stands for: an
    empty one is all but private use."""
    table = _bytes("fallbacks", given_or(fallbacks, ""))
    return _rules(_bytes("offer", given_or(offer, without)), table)


def lines(tags: Iterable[str]) -> str:
    """The tags, one on a line."""
    if isinstance(tags, (str, bytes, bytearray, memoryview)):
        raise wrong_type("tags", "an iterable of str", tags)
    try:
        given = iter(tags)
    except TypeError:
        raise wrong_type("tags", "an iterable of str", tags) from None
    made = []
    for at, tag in enumerate(given):
        if not isinstance(tag, str):
            raise wrong_type(f"tags[{at}]", "str", tag)
        # (an LF would part a tag in two: a zero byte is refused as the LF would be)
        made.append(tag.replace("\n", "\0") + "\n")
    return "".join(made)


def _counted(name: str, value: int) -> int:
    try:
        counted = operator.index(value)
    except TypeError:
        raise wrong_type(name, "int", value) from None
    if counted < 0:
        raise ValueError(f"{name} counts from 0")
    return counted


def place(value: int) -> int:
    """The place as the call takes it. (No label has a text at the last one.)"""
    return min(_counted("place", value), MAX_PLACE)


def moment(now: Optional[int]) -> int:
    """The time of an edit: that of the clock, in milliseconds, if none is given."""
    if now is None:
        return time.time_ns() // 1_000_000
    counted = _counted("now", now)
    if counted > MAX_TIME:
        raise ValueError(f"now is at most {MAX_TIME}")
    return counted


def limit(not_after: Optional[int]) -> int:
    """The limit on times as the call takes it; 0 is none."""
    if not_after is None:
        return 0
    counted = _counted("not_after", not_after)
    if counted == 0:
        raise ValueError("not_after counts from 1; None is no limit")
    # (no time is after the largest)
    return min(counted, MAX_TIME)


def flags(extended: bool = False, lenient: bool = False, widen: bool = False) -> int:
    """How a field is read and compared."""
    return EXTENDED * bool(extended) | LENIENT * bool(lenient) | WIDEN * bool(widen)
