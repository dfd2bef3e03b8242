"""The file of a site that is edited: its lock, its bytes, and how others are put in their place."""
import contextlib
import errno
import os
import signal
import stat
import sys
from typing import Iterator, List, Optional, Sequence

from .. import _in_place
from .._answers import Cell, Change, changes
from ._command import run, status_of
from ._locating import Document
from ._log import Log
from ._shared import IN_USE, LIMIT, REFUSED, Fault, Program, compact, count_of, moment_of, read_file

OPENING, CLOSING = b'{"cells":[', b'"version":2}\n'
# The signals that wait while a file is replaced, and its log is written.
SIGNALS = (signal.SIGINT, signal.SIGTERM, signal.SIGHUP)
# How a log says that it is none, or that it may not be written.
NO_LOG = (errno.EINVAL, errno.ELOOP, errno.ENXIO, errno.EISDIR, errno.EACCES)


def one_line(document: bytes) -> bytes:
    """A document on one line. (An LF is a blank of JSON like a CR, and part of no text.)"""
    if document.count(b"\n") == 1 and document.endswith(b"\n"):
        return document
    return document.replace(b"\n", b"\r") + b"\n"


def _expect_documents(names: Sequence[str], program: Program) -> None:
    """Ends the program if there is no document of a name that may be read."""
    for name in names:
        if name == "-":
            if sys.stdin is not None and sys.stdin.isatty():
                program.tell("documents are read from standard input")
        elif not os.path.exists(name):
            raise Fault(f"{name}: no such file")
        elif os.path.isdir(name) or not os.access(name, os.R_OK):
            raise Fault(f"{name}: not a file that may be read")


def read_documents(names: Sequence[str], program: Program) -> List[Document]:
    """The documents in files, or that on standard input, each with its name. (Of each a byte more
    than a command reads is enough.)"""
    _expect_documents(names, program)
    shown = [(None, "standard input") if it == "-" else (it, it) for it in names]
    return [(name, read_file(path, name, LIMIT + 1)) for path, name in shown]


class Place:
    """The file of a site, by its name and without symbolic links, with its lock and its log."""

    def __init__(
        self, program: Program, name: str, wait: Optional[float] = None, keep: Optional[int] = None
    ) -> None:
        self.program, self.name, self.wait = program, name, wait
        self.path = os.path.realpath(name)
        if not os.path.isdir(os.path.dirname(self.path)):
            raise Fault(f"{name}: no such folder")
        self.log = Log(self.path, keep)

    def expect_readable(self) -> None:
        """Ends the program if there is no plain file that may be read."""
        if not os.path.lexists(self.path):
            raise Fault(f"{self.name}: no such file (the command new makes one)")
        if self.name == "-" or not os.path.isfile(self.path) or not os.access(self.path, os.R_OK):
            raise Fault(f"{self.name}: not a file that may be read")

    def expect_editable(self) -> None:
        """The same if it may not be written, or has another name: a hard link would keep the former
        site, and who edits that one uses the timestamps of this one again."""
        self.expect_readable()
        if not os.access(self.path, os.W_OK):
            raise Fault(f"{self.name}: not a file that may be written")
        if os.stat(self.path).st_nlink > 1:
            raise Fault(
                f"{self.name}: has other names (hard links), which an edit would leave as they are:"
                " copy it by cp -p, and move the copy over it"
            )

    def read(self) -> bytes:
        """The bytes of the site. What is no plain file is not waited for."""
        self.expect_readable()
        return read_file(self.path, self.name)

    def document(self) -> Document:
        """The site on one line, with its name, as it is before another document."""
        return self.name, one_line(self.read())

    def expect_none(self) -> None:
        """Ends the program if there is a file already."""
        if os.path.lexists(self.path):
            raise Fault(f"{self.name}: is there already", REFUSED)

    def is_same_file(self, other: "Place") -> bool:
        """Whether both names lead to one file."""
        return os.path.samefile(self.path, other.path)

    @contextlib.contextmanager
    def locked(self) -> Iterator[None]:
        """Holds the lock, the file SITE.lock, which `silkwaram.edit` takes too."""
        lock = f"{self.path}.lock"
        if os.path.lexists(lock) and (os.path.islink(lock) or not os.path.isfile(lock)):
            raise Fault(f"{self.name}: its lock is not a plain file: {lock}")
        try:
            with _in_place.locked(self.path, self.wait):
                _in_place.remove_leftovers(self.path)
                yield
        except TimeoutError:
            words = f"{self.name}: still in use by another program after {self.wait} seconds"
            raise Fault(words, IN_USE) from None
        except _in_place.LockFault as fault:
            words = f"its lock cannot be taken: {fault.strerror}"
            if fault.errno in (errno.EACCES, errno.EPERM):
                words = f"its lock may not be read: give {lock} the mode of the site"
                if not os.path.lexists(lock):
                    words = "its lock cannot be made"
            raise Fault(f"{self.name}: {words}") from None

    def check_not_older(self, site: bytes) -> None:
        """Ends the program if the site lacks the last of its own edits that its log has, as a copy
        from before that edit does."""
        status = status_of(site)
        lacked = self.log.last_lacked(site, status.site) if status else None
        if lacked is None:
            return
        assert lacked.after is not None
        when = moment_of(lacked.after.stamp.time)
        self.program.tell(
            f"{self.name}: is older than its log, {self.log.path}: it lacks the edit of"
            f" {compact(lacked.id)} in {lacked.language} of {when}, so it was put back to an older"
            " copy. If it were edited, other sites would have other texts under the same timestamps"
        )
        raise Fault(
            "to go on, make a site with a new name from it and the other sites: lexicat-file"
            f" NEW.json restore {self.name} --site NAME OTHER..", REFUSED,
        )

    def make(self, site: bytes) -> None:
        """Makes the file of a new site. No site of its name was here: it would use its timestamps
        again."""
        status = status_of(site)
        if status and self.log.last_own(status.site) is not None:
            raise Fault(
                f"{self.name}: there was a site of this name, whose edits are in {self.log.path}: give"
                " the new one another name (--site NAME)", REFUSED,
            )
        self.replace(b"", site, "new", None)

    def replace(self, old: bytes, new: bytes, by: str, sites: Optional[List[str]]) -> None:
        """Puts a site in place of the old one, and adds to the log what differs. A site that stays
        the same is left alone; that there was an exchange, with the `sites`, is logged all the
        same."""
        if not (new.startswith(OPENING) and new.endswith(CLOSING)):
            raise Fault(f"{self.name}: what lexicat made is not a site")
        if len(new) > LIMIT:
            raise Fault(
                f"{self.name}: would have {len(new)} bytes, over the {LIMIT} that a command reads",
                REFUSED,
            )
        lines = _changes(old, new)
        # (from here on the edit is made, and no signal gives it another status)
        former = signal.pthread_sigmask(signal.SIG_BLOCK, SIGNALS)
        try:
            if new != old:
                try:
                    _in_place.replace(self.path, new)
                except OSError as fault:
                    raise Fault(f"{self.name}: cannot be replaced: {fault.strerror}") from None
            is_logged = self._add_to_log(by, lines.split(b"\n")[1:-1], sites)
        finally:
            signal.pthread_sigmask(signal.SIG_SETMASK, former)
        if sites is not None:
            self._tell_overridden(new, lines, is_logged)

    def _add_to_log(self, by: str, rows: List[bytes], sites: Optional[List[str]]) -> bool:
        """Whether the log has the edit."""
        try:
            self.log.add(by, rows, stat.S_IMODE(os.stat(self.path).st_mode), sites)
            return True
        except OSError as fault:
            is_none = fault.errno in NO_LOG
            why = "is not a plain file that may be written" if is_none else fault.strerror
            self.program.tell(
                f"{self.name}: the edit was made, but is not in the log: {self.log.path}: {why}"
            )
            return False

    def _tell_overridden(self, new: bytes, lines: bytes, is_logged: bool) -> None:
        """Says how many texts of this site an exchange has overridden, and each of them if no log
        has it."""
        status = status_of(new)
        name = status.site if status else ""
        lost = [it for it in changes(lines.decode()) if is_overridden(it, name)]
        if not lost:
            return
        were, them = ("was", "it") if len(lost) == 1 else ("were", "them")
        told = f"{self.name}: {count_of(len(lost), 'text')} of this site {were} overridden"
        told += " by later edits"
        if is_logged:
            self.program.tell(f"{told}: lexicat-file {self.name} conflicts shows {them}")
            return
        self.program.tell(f"{told}, and no log has {them}:")
        for it in lost:
            self.program.tell(
                f"message {compact(it.id)} in {it.language}: {shown(it.before)} was overridden by"
                f" {shown(it.after)}"
            )


def shown(cell: Optional[Cell]) -> str:
    """The texts of a cell, in words."""
    if cell is None:
        return "nothing"
    return "deleted" if cell.texts is None else " | ".join(map(compact, cell.texts))


def is_overridden(edit: Change, site: str) -> bool:
    """Whether another site's label took the place of one that this site wrote."""
    before, after = edit.before, edit.after
    return (
        before is not None
        and after is not None
        and before.stamp.site == site != after.stamp.site
        and before.texts != after.texts
    )


def _changes(old: bytes, new: bytes) -> bytes:
    """The lines of `changes` from one site to another; of a new site there are none."""
    if not old or old == new:
        return b""
    ran = run(["changes"], one_line(old) + new)
    return ran.output if ran.status == 0 else b""
