"""The shared library, and its calls as `silkwaram.h` declares them."""
import ctypes
from ctypes import POINTER, c_char_p, c_int32, c_size_t, c_uint32, c_uint64, c_void_p
from typing import Any, Dict, List, NamedTuple, Tuple

from ._calls import CALLS
from ._paths import path_of

NAME = "libsilkwaram.so.0"
FIRST_ROOM = 1024

FOUND, NOTHING, USAGE, REFUSED, NO_MEMORY = 0, 1, 2, 3, 5
EXTENDED, LENIENT, WIDEN, CHECK_OWN, LABELS = 1, 2, 4, 8, 16
# What a refusal has, in `Told.given`.
HAS_OFFSET, HAS_ROW, HAS_COUNT, OF_SECOND = 1, 2, 4, 8


class Told(ctypes.Structure):
    """What a call reports beside its status."""

    _fields_ = [
        ("len", c_size_t),
        ("offset", c_size_t),
        ("row", c_size_t),
        ("count", c_size_t),
        ("number", c_uint32),
        ("given", c_uint32),
    ]


class Handle(ctypes.Structure):
    """A site that the library holds, or none."""

    _fields_ = [("held", c_void_p)]


class Rules(ctypes.Structure):
    """What readers are offered, and which language is next to which."""

    _fields_ = [
        ("offer", c_char_p),
        ("offer_len", c_size_t),
        ("fallbacks", c_char_p),
        ("fallbacks_len", c_size_t),
    ]


class Answer(NamedTuple):
    """What a call of this name answered."""

    status: int
    told: Told
    text: bytes
    call: str = ""


# What a parameter of each kind takes.
_TAKEN: Dict[str, List[Any]] = {
    "uint32_t": [c_uint32],
    "uint64_t": [c_uint64],
    "size_t": [c_size_t],
    "text": [c_char_p, c_size_t],
    "room": [c_char_p, c_size_t],
    "sw_site": [POINTER(Handle)],
    "sw_rules": [POINTER(Rules)],
    "sw_told": [POINTER(Told)],
}
_RESULTS = {"int32_t": c_int32, "uint32_t": c_uint32, "void": None}


def _loaded(path: str) -> ctypes.CDLL:
    """The library with its calls declared; an ImportError if it is another, or not there."""
    try:
        loaded = ctypes.CDLL(path)
    except OSError as fault:
        raise ImportError(
            f"{path} cannot be loaded ({fault}): install Silkwaram's library, or name its file by"
            " SILKWARAM_LIBRARY"
        ) from fault
    for name, declared in CALLS.items():
        try:
            call = getattr(loaded, name)
        except AttributeError as fault:
            raise ImportError(
                f"{path} is not Silkwaram's library, or one of an older version: it has no {name}"
            ) from fault
        call.restype = _RESULTS[declared["result"]]
        call.argtypes = [it for kind, _ in declared["parameters"] for it in _TAKEN[kind]]
    return loaded


library = _loaded(path_of(NAME, "SILKWARAM_LIBRARY"))


def done(call: Any, *given: Any) -> Answer:
    """Makes a call of the library that answers nothing but its status."""
    told = Told()
    return Answer(call(*given, told), told, b"", call.__name__)


def answered(call: Any, *given: Any, room: int = FIRST_ROOM) -> Answer:
    """Makes a call of the library with room for its answer: once more if that room was too
    small."""
    told = Told()
    while True:
        out = ctypes.create_string_buffer(room)
        status: int = call(*given, out, room, told)
        if told.len <= room:
            return Answer(status, told, ctypes.string_at(out, told.len), call.__name__)
        room = told.len


def library_version() -> Tuple[int, int, int]:
    """Returns major, minor and patch of the library's version."""
    number = library.sw_version()
    return number // 10000, number // 100 % 100, number % 100
