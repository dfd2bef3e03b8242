"""The log of a site, the file SITE.changes: each edit that was made by these programs, and each
exchange.

A line is compact JSON, `[WHEN,BY,ID,LANGUAGE,BEFORE,AFTER]`: the moment in UTC, the command with
the document that it took, if any, and a row of `changes`. An exchange has a line `[WHEN,BY,NAMES]`
before those of its labels, with the names of the other sites if they are known.
"""
import errno
import json
import os
import re
import stat
import time
from typing import (
    Any, BinaryIO, Callable, Iterable, Iterator, List, NamedTuple, Optional, Sequence, Union,
)

from .. import _in_place
from .._answers import Change, change
from ._documents import has_edit
from ._shared import Fault, compact, write_all

# Days for which lines are kept, unless `--keep` says otherwise; older lines are taken out once the
# first of them is older than that by a tenth.
KEPT_DAYS = 400
SECONDS_OF_A_DAY = 86400
# A moment as the log has it. (These texts are in the order of their moments.)
WHEN = re.compile(r"\d{4}-(0[1-9]|1[0-2])-\d\dT\d\d:\d\d:\d\dZ", re.ASCII)
BLOCK = 65536


class Line(NamedTuple):
    """An edit of a label, with its moment."""

    when: str
    by: str
    change: Change


class Exchange(NamedTuple):
    """An exchange, with the names of the other sites if they are known."""

    when: str
    by: str
    sites: List[str]


Entry = Union[Line, Exchange]


def moment(seconds: float) -> str:
    """A time in seconds since 1970 as the log has it, in UTC."""
    return time.strftime("%Y-%m-%dT%H:%M:%SZ", time.gmtime(seconds))


def before_now(days: float) -> str:
    """The moment of so many days before now."""
    return moment(time.time() - days * SECONDS_OF_A_DAY)


def parsed(line: bytes) -> Entry:
    """What a line says; a ValueError if it is none."""
    try:
        when, by, *more = json.loads(line)
        if not WHEN.fullmatch(when):
            raise ValueError(line)
        return Exchange(when, by, more[0]) if len(more) == 1 else Line(when, by, change(more))
    except TypeError:
        raise ValueError(line) from None


class Log:
    """The log of the site in a file."""

    def __init__(self, path: str, keep: Optional[int] = None) -> None:
        self.path = f"{path}.changes"
        self.keep = KEPT_DAYS if keep is None else keep

    def _opened(self, flags: int) -> int:
        file = os.open(self.path, flags | os.O_CLOEXEC | os.O_NOFOLLOW | os.O_NONBLOCK, 0o666)
        if not stat.S_ISREG(os.fstat(file).st_mode):
            os.close(file)
            raise OSError(errno.EINVAL, "not a plain file", self.path)
        return file

    def add(self, by: str, rows: Sequence[bytes], mode: int, sites: Optional[List[str]]) -> None:
        """Adds what differs after an edit, rows of `changes`, and that it was an exchange, if there
        are `sites`. A new log has the mode of the site. It may raise an OSError."""
        head = f"{compact(moment(time.time()))},{compact(by)}".encode()
        text = b"" if sites is None else b"[%s,%s]\n" % (head, compact(sites).encode())
        text += b"".join(b"[%s,%s\n" % (head, it[1:]) for it in rows)
        if not text:
            return
        is_new = not os.path.lexists(self.path)
        file = self._opened(os.O_RDWR | os.O_APPEND | os.O_CREAT)
        try:
            if is_new:
                os.fchmod(file, mode)
            # (a line that a full disk has cut ends before this one begins)
            size = os.fstat(file).st_size
            if size and os.pread(file, 1, size - 1) != b"\n":
                text = b"\n" + text
            write_all(file, text)
            os.fsync(file)
        finally:
            os.close(file)
        self._forget()

    def can_grow(self) -> bool:
        """Whether an edit can be added, or the log can be made."""
        if not os.path.lexists(self.path):
            return os.access(os.path.dirname(self.path) or ".", os.W_OK)
        try:
            os.close(self._opened(os.O_RDWR | os.O_APPEND))
        except OSError:
            return False
        return True

    def _forget(self) -> None:
        """Takes out the lines that are older than those that are kept, but the last of each
        site."""
        first, oldest = next(self.lines(), None), before_now(self.keep)
        if first is None or first.when >= before_now(self.keep * 1.1):
            return
        kept, last = [], {}
        with open(self.path, "rb") as file:
            for line in file:
                try:
                    it = parsed(line)
                except ValueError:
                    continue
                if it.when >= oldest:
                    kept.append(line)
                elif isinstance(it, Line) and it.change.after:
                    last[it.change.after.stamp.site] = line
        _in_place.remove_leftovers(self.path)
        _in_place.replace(self.path, b"".join([*last.values(), *kept]))

    def lines(self) -> Iterator[Entry]:
        """What the lines say, the first one first. A log that is not there has none."""
        return self._read(iter)

    def backwards(self) -> Iterator[Entry]:
        """The same, the last one first."""
        return self._read(_reversed)

    def _read(self, lines_in: Callable[[BinaryIO], Iterable[bytes]]) -> Iterator[Entry]:
        """What the lines say that a function finds in the file. What is no line is passed over."""
        try:
            with open(self._opened(os.O_RDONLY), "rb") as file:
                for line in lines_in(file):
                    try:
                        it = parsed(line)
                    except ValueError:
                        continue
                    yield it
        except FileNotFoundError:
            return
        except OSError as fault:
            raise Fault(f"{self.path}: {fault.strerror}") from None

    def last_own(self, site: str) -> Optional[Change]:
        """The last edit that a site made."""
        try:
            for it in self.backwards():
                if isinstance(it, Line) and it.change.after and it.change.after.stamp.site == site:
                    return it.change
        except Fault:
            # (if the log cannot be read, an edit says so once it is made)
            pass
        return None

    def last_lacked(self, document: bytes, site: str) -> Optional[Change]:
        """The last edit that a site made, if its document lacks it: then it is that of an older
        copy."""
        last = self.last_own(site)
        return None if last is None or has_edit(document, last) else last


def _reversed(log: Any) -> Iterator[bytes]:
    """The lines of a file, the last one first."""
    left, at = b"", os.fstat(log.fileno()).st_size
    while at > 0:
        size = min(BLOCK, at)
        at -= size
        block = os.pread(log.fileno(), size, at) + left
        left, *lines = block.split(b"\n")
        yield from (it for it in reversed(lines) if it)
    if left:
        yield left
