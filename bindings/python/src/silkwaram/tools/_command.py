"""The command `lexicat`: in this process, by the library that `silkwaram_command.h` declares; or as
a process of its own, if the variable LEXICAT names the program, or if there is no such library."""
import ctypes
import functools
import os
from typing import List, NamedTuple, Optional, Sequence, Union

from .._answers import Status, status
from .._paths import path_of
from ._shared import Fault

NAME = "libsilkwaram-command.so.0"
# How much longer than its input an answer may be before the command is run once more for it.
MORE = 65536
NO_PROGRAM = 127


class _Text(ctypes.Structure):
    _fields_ = [("text", ctypes.c_char_p), ("len", ctypes.c_size_t)]


class _Told(ctypes.Structure):
    _fields_ = [
        ("out_len", ctypes.c_size_t),
        ("err_len", ctypes.c_size_t),
        ("input_read", ctypes.c_uint32),
    ]


class Ran(NamedTuple):
    """What a run came to: its status, what it printed, what it wrote to standard error, and whether
    it reads an input."""

    status: int
    output: bytes
    errors: bytes
    reads_input: bool


@functools.lru_cache(maxsize=None)
def _library() -> Optional[ctypes.CDLL]:
    """The library, if it is there."""
    try:
        loaded = ctypes.CDLL(path_of(NAME, "SILKWARAM_COMMAND_LIBRARY"))
    except OSError:
        return None
    buffer = [ctypes.c_char_p, ctypes.c_size_t]
    loaded.sw_command.restype = ctypes.c_int32
    loaded.sw_command.argtypes = [
        ctypes.POINTER(_Text), ctypes.c_size_t, *buffer * 3, ctypes.POINTER(_Told)
    ]
    return loaded


def run(
    words: Sequence[Union[str, bytes]], given: bytes = b"", room: Optional[int] = None
) -> Ran:
    """Runs the command on the words after its name, over an input, with so much room for its answer
    at first: for one that is not much longer than the input, if it is not said."""
    library = None if os.environ.get("LEXICAT") else _library()
    if library is None:
        return _run_program(words, given)
    texts = [word if isinstance(word, bytes) else os.fsencode(word) for word in words]
    array = (_Text * len(texts))(*(_Text(it, len(it)) for it in texts))
    told = _Told()
    rooms: List[int] = [len(given) + MORE if room is None else room, MORE]
    while True:
        out, errors = (ctypes.create_string_buffer(it) for it in rooms)
        ended = library.sw_command(
            array, len(texts), given, len(given), out, rooms[0], errors, rooms[1], told
        )
        if told.out_len <= rooms[0] and told.err_len <= rooms[1]:
            return Ran(
                ended,
                ctypes.string_at(out, told.out_len),
                ctypes.string_at(errors, told.err_len),
                bool(told.input_read),
            )
        rooms = [max(told.out_len, rooms[0]), max(told.err_len, rooms[1])]


def status_of(site: bytes) -> Optional[Status]:
    """What the command `status` says of a site; None of what is no site."""
    ran = run(["status"], site, MORE)
    return status(ran.output.decode()) if ran.status == 0 else None


def _run_program(words: Sequence[Union[str, bytes]], given: bytes) -> Ran:
    """The same by a process."""
    import shutil
    import subprocess

    program = os.environ.get("LEXICAT") or "lexicat"
    found = shutil.which(program)
    if found is None:
        raise Fault(
            f"there is neither {program} nor the library {NAME}: set LEXICAT or"
            " SILKWARAM_COMMAND_LIBRARY", NO_PROGRAM,
        )
    done = subprocess.run([found, *words], input=given, capture_output=True, check=False)
    return Ran(done.returncode, done.stdout, done.stderr, True)
