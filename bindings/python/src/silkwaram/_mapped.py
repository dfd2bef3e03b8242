"""Sites that are asked where their files lie, and are not opened."""
import ctypes
import logging
import mmap
import os
import threading
from copy import copy as copied
from typing import Any, Optional, Tuple, Union

from ._arguments import rules, words, wrong_type
from ._library import Answer, answered, library
from ._questions import Calls, Questions
from ._refusals import Refused, checked
from ._site import Site
from ._site_file import Path, open_plain, state_of

_log = logging.getLogger("silkwaram")


class _Buffer(ctypes.Structure):
    """Where the bytes of an object are, as Python's `Py_buffer` says."""

    _fields_ = [
        ("buf", ctypes.c_void_p),
        ("obj", ctypes.c_void_p),
        ("len", ctypes.c_ssize_t),
        ("itemsize", ctypes.c_ssize_t),
        ("readonly", ctypes.c_int),
        ("ndim", ctypes.c_int),
        ("format", ctypes.c_void_p),
        ("shape", ctypes.c_void_p),
        ("strides", ctypes.c_void_p),
        ("suboffsets", ctypes.c_void_p),
        ("internal", ctypes.c_void_p),
    ]


_taken = ctypes.PYFUNCTYPE(
    ctypes.c_int, ctypes.py_object, ctypes.POINTER(_Buffer), ctypes.c_int
)(("PyObject_GetBuffer", ctypes.pythonapi))
_given_back = ctypes.PYFUNCTYPE(None, ctypes.POINTER(_Buffer))(
    ("PyBuffer_Release", ctypes.pythonapi)
)


class _File:
    """The bytes of a file as it was when it was opened, for as long as anything refers to this."""

    def __init__(self, path: Path, is_copied: bool, is_checked: bool) -> None:
        # (of a map that may not be written no other object of ctypes gives the address)
        self._buffer = _Buffer()
        with open_plain(path) as file:
            it = os.fstat(file.fileno())
            self.state = state_of(it)
            # (an empty file cannot be mapped)
            is_read = is_copied or it.st_size == 0
            held = file.read() if is_read else mmap.mmap(file.fileno(), 0, access=mmap.ACCESS_READ)
        _taken(held, self._buffer, 0)
        self.text = ctypes.c_char_p(self._buffer.buf), self._buffer.len
        # (what every question raises then)
        self.fault = _fault_of(path, held) if is_checked else None

    def __del__(self) -> None:
        _given_back(self._buffer)


def _fault_of(path: Path, held: Union[bytes, mmap.mmap]) -> Optional[ValueError]:
    """Why a file is not what Silkwaram writes for a site, with its last LF or without; None if
    it is."""
    content = held[:]
    try:
        with Site.open(content) as site:
            written = site.to_bytes()
    except Refused as fault:
        return fault.with_traceback(None)
    if content in (written, written[:-1]):
        return None
    return ValueError(f"{os.fsdecode(path)} is a site, but not as Silkwaram writes it")


class MappedSite(Questions):
    """A site that is asked where its file lies: see `mapped`.

    Any thread may ask it, all at once, and a forked process may go on with it. It is closed by
    `close`, by the end of a `with` block, or when it is not used any more. It is neither copied
    deeply nor pickled.
    """

    _calls = Calls(library.sw_text_lookup, library.sw_text_text, library.sw_text_filter)

    def __init__(self, path: Path, copy: bool = False, check: bool = False) -> None:
        """Maps the file. Call `silkwaram.mapped`."""
        try:
            self._path: Optional[Path] = os.fspath(path)
        except TypeError:
            raise wrong_type("path", "str, bytes or os.PathLike", path) from None
        self._is_copied, self._is_checked, self._is_closed = bool(copy), bool(check), False
        # (held while the file is opened anew; that of a forked process is its own)
        self._lock, self._process = threading.Lock(), os.getpid()
        # (the state of a file that is not asked, since it is no site)
        self._left: Optional[Tuple[int, ...]] = None
        self._file: Optional[_File] = self._opened(self._path)
        if not self._is_site(self._file) and self._file.fault is not None:
            raise copied(self._file.fault)

    def share(self) -> "MappedSite":
        """Returns the site as it is now: this one does not look whether its file was replaced."""
        other = object.__new__(MappedSite)
        other._path, other._file = None, self._current()
        return other

    def close(self) -> None:
        """Lets the file go. Calls are ValueErrors then, and closing it again does nothing."""
        self._is_closed, self._file = True, None

    def _ask(self, call: Any, *given: Any) -> Answer:
        return self._ask_file(self._current(), call, *given)

    @staticmethod
    def _ask_file(file: _File, call: Any, *given: Any) -> Answer:
        if file.fault is not None:
            raise copied(file.fault)
        return checked(answered(call, *file.text, *given))

    def _current(self) -> _File:
        """The file as it is now. One that cannot be had, or is no site, leaves the one before."""
        file = self._file
        if file is None:
            raise ValueError("the site is closed")
        try:
            if self._path is None or state_of(os.stat(self._path)) in (file.state, self._left):
                return file
            return self._opened_anew(self._path, file) or file
        except OSError:
            return file

    def _opened(self, path: Path) -> _File:
        return _File(path, self._is_copied, self._is_checked)

    def _is_site(self, file: _File) -> bool:
        """Whether a first question to a file is answered; if not, each question raises its
        fault."""
        try:
            asked = [rules(None), 0, *words(id="-", field="*", default="")]
            self._ask_file(file, self._calls.lookup, *asked)
        except ValueError as fault:
            file.fault = fault.with_traceback(None)
        return file.fault is None

    def _opened_anew(self, path: Path, before: _File) -> Optional[_File]:
        """The file that was put in place of another; None while another thread opens it."""
        if self._process != os.getpid():
            self._lock, self._process = threading.Lock(), os.getpid()
        lock = self._lock
        if not lock.acquire(blocking=False):
            return None
        try:
            # (another thread may have opened it by now)
            if self._file is before:
                self._take(self._opened(path), before)
            file = self._file
        finally:
            lock.release()
        if self._is_closed:
            self._file = None
        return file

    def _take(self, file: _File, before: _File) -> None:
        """Asks a new file from now on. One that is no site leaves the one before, with a warning in
        the log, unless somebody wrote into that: of a map of it bytes may be gone."""
        is_other = self._is_copied or file.state[:2] != before.state[:2]
        if self._is_site(file) or not is_other:
            self._file, self._left = file, None
        else:
            self._left = file.state
            _log.warning("%s is not read anew, and the site stays: %s", self._path, file.fault)


def mapped(path: Path, copy: bool = False, check: bool = False) -> MappedSite:
    """Returns the site of a file, which is asked where it lies: it is not opened.

        site = silkwaram.mapped("paris.json")
        print(site.text("greeting", "fr-CA, en;q=0.5"))

    The file is the document of a site as Silkwaram writes it, of any size. It is mapped, and of a
    million messages a question looks at some thirty places; so a process begins at once, and all
    that ask share the memory. It has `lookup`, `text`, `texts` and `filter` of `Site`, `share` and
    `close`.

    Each call looks whether the file was replaced (`os.stat`: device, inode, size and times), and
    asks the new one then; while a thread opens that, others ask the one before. A file that is
    gone, or that is no site, leaves the site as it was: one question is put to each new file, and
    if that is refused a warning is logged, once for each such file. `share` gives the site as it
    is, whatever becomes of the file.

    **Replace the file, and never write into it**: a new file is moved over it, as `silkwaram.edit`
    and `lexicat-file` do. If a file is cut while it is mapped, the system ends the process at
    the first page that is gone (SIGBUS). With `copy` the bytes are read, and not mapped: whoever
    writes into such a file ends no process, though what was half written may be refused.

    Another program may have written the file again: with its members and rows in their order,
    without blanks, and with any escapes in the strings of its rows. Given other bytes a question
    returns, but a label may be missing without a refusal. A file whose ends are not
    those of a site is Refused here, and so may a question be that meets a row which is none. A file
    that cannot be read is an OSError here.

    With `check` each new file is opened and written once, in the time and the memory of
    `Site.open`. What is no site is Refused here, as by `Site.open`, and a site that is not just as
    Silkwaram writes it is a ValueError; a later file of these kinds leaves the site as it was.
    """
    return MappedSite(path, copy, check)
