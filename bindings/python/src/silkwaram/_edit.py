"""The file of a site, edited in place."""
import contextlib
import errno
import os
import stat
import threading
from typing import TYPE_CHECKING, Iterator, Optional, Set, Tuple

from ._arguments import Text
from ._in_place import fault, locked, remove_leftovers, replace
from ._site import Site
from ._site_file import Path

if TYPE_CHECKING:
    from .tools._log import Log

COMMAND_LIMIT = 67108864  # the bytes that a command reads

# The files that are being edited, each with its process and thread.
_edited: Set[Tuple[str, int, int]] = set()


def _is_there(path: str) -> bool:
    """Whether there is a file. One that may not be edited raises an OSError."""
    try:
        state = os.stat(path)
    except FileNotFoundError:
        return False
    if stat.S_ISDIR(state.st_mode):
        raise fault(errno.EISDIR, path)
    if not stat.S_ISREG(state.st_mode):
        raise fault(errno.EINVAL, path, "not a plain file")
    if state.st_nlink > 1:
        # The other name would keep the former site, whose edits use the stamps of this one again.
        raise fault(errno.EMLINK, path, "has other names (hard links), so it is not edited")
    return True


@contextlib.contextmanager
def _edited_once(path: str) -> Iterator[None]:
    """Raises a RuntimeError if this thread edits the file already: it would wait for itself."""
    edit_here = (path, os.getpid(), threading.get_ident())
    if edit_here in _edited:
        raise RuntimeError(f"edit of {path} inside itself")
    _edited.add(edit_here)
    try:
        yield
    finally:
        _edited.discard(edit_here)


@contextlib.contextmanager
def edit(
    path: Path,
    *,
    create: Optional[Text] = None,
    wait: Optional[float] = None,
    limit: Optional[int] = COMMAND_LIMIT,
    log: Optional[str] = None,
) -> Iterator[Site]:
    """Opens the file of a site for a `with` block, and writes it if the block ends well.

        with silkwaram.edit("paris.json") as site:
            site.put("greeting", "fr", "Bonjour")

    The file is locked from before it is read until it is written (`PATH.lock`, the lock of
    `lexicat-file`), so that no edit of another process is lost. The new file is written beside the
    old one, synced, and renamed over it: whoever reads the file reads one state or the other. If
    the block raises, or the file cannot be written, it is as it was. What stays the same is not
    written.

    If there is no file, `create` makes the empty site of that name; without it that is
    FileNotFoundError. `wait` is how many seconds to wait for the lock, else TimeoutError; None
    waits as long as it takes. The site is closed at the end; a share of it goes on.

    With `log` what changed is added to the log of the site, `PATH.changes`, which `lexicat-file
    PATH log` and `conflicts` show; `log` is what it says of who edited. A site that is older than
    its log was put back to an older copy, and is an OSError (ESTALE) then. If the log cannot be
    written, the edit is made all the same, and a warning is logged.

    A document of over `limit` bytes, which no command reads, is an OSError, and None writes it all
    the same. So is a file with hard links: an edit by one name would leave the other as it was. An
    edit of a file inside an edit of the same file is a RuntimeError.

    Refused: as by `Site.open` and `Site.new`.
    """
    file = os.path.realpath(os.fspath(path))
    if not _is_there(file):
        if create is None:
            raise fault(errno.ENOENT, file)
        # (a name that is refused leaves no lock)
        Site.new(create).close()
    with _edited_once(file), locked(file, wait):
        remove_leftovers(file)
        old, opened = _opened(file, create)
        log_of = None if log is None or old is None else _log_of(file, opened, old)
        with opened as site, contextlib.ExitStack() as kept:
            former = None if log_of is None else kept.enter_context(site.share())
            yield site
            new = site.to_bytes()
            lines = "" if former is None else former._changes_lines(site)
        if new == old:
            return
        if limit is not None and len(new) > limit:
            raise fault(errno.EFBIG, file, f"{len(new)} bytes are over the limit of {limit}")
        replace(file, new)
        if log_of is not None:
            _add_to_log(file, log_of, str(log), lines)


def _opened(file: str, create: Optional[Text]) -> Tuple[Optional[bytes], Site]:
    """The document in a file, or None, and its site, or the one to make."""
    if create is not None and not _is_there(file):
        return None, Site.new(create)
    with open(file, "rb") as read:
        old = read.read()
    return old, Site.open(old)


def _log_of(file: str, site: Site, document: bytes) -> "Log":
    """The log of a site. A site that is older than it is an OSError."""
    from .tools._log import Log

    log = Log(file)
    if log.last_lacked(document, site.status().site) is not None:
        raise fault(errno.ESTALE, file, f"is older than its log {log.path}")
    return log


def _add_to_log(file: str, log: "Log", by: str, lines: str) -> None:
    """Adds lines of `changes`, of which the first one counts the others, to the log of a site."""
    rows = [it.encode() for it in lines.split("\n")[1:-1]]
    try:
        log.add(by, rows, stat.S_IMODE(os.stat(file).st_mode), [])
    except OSError as why:
        import logging

        words = "%s: the edit was made, but is not in the log: %s"
        logging.getLogger("silkwaram").warning(words, file, why)
