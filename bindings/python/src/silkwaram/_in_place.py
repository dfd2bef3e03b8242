"""How a file is edited in place: its lock, and how a text is put in its place."""
import contextlib
import errno
import fcntl
import os
import re
import stat
import time
from typing import Iterator, Optional

SECONDS_BETWEEN_TRIES = 0.02
# What is between the name of a file and eight digits in that of a new one beside it.
MADE = ".next.lexicat-"


def fault(number: int, path: str, what: str = "") -> OSError:
    """An OSError about a file."""
    return OSError(number, what or os.strerror(number), path)


def _take_mode(file: int, path: str) -> None:
    """Gives an open file the mode and, as far as it is allowed, the owner and group of another."""
    state = os.stat(path)
    for owner in (state.st_uid, -1):
        with contextlib.suppress(PermissionError):
            os.fchown(file, owner, state.st_gid)
            break
    os.fchmod(file, stat.S_IMODE(state.st_mode))


class LockFault(OSError):
    """Why the lock of a file cannot be had, if nobody else has it."""


def _open_lock(path: str) -> int:
    """Opens the lock of a file, which whoever may write the file may open."""
    name = path + ".lock"
    # (a FIFO is not waited for)
    flags = os.O_CLOEXEC | os.O_NOFOLLOW | os.O_NONBLOCK
    try:
        try:
            lock = os.open(name, os.O_RDWR | os.O_CREAT | flags, 0o666)
        except PermissionError:
            # (one that somebody else made may be for readers alone, which is enough)
            lock = os.open(name, os.O_RDONLY | flags)
    except FileNotFoundError:
        raise fault(errno.ENOENT, path) from None
    except OSError as why:
        raise LockFault(why.errno, why.strerror, name) from None
    if not stat.S_ISREG(os.fstat(lock).st_mode):
        os.close(lock)
        raise LockFault(errno.EINVAL, "the lock is not a plain file", name)
    # (a lock of somebody else keeps its mode, and a site may be gone by now)
    with contextlib.suppress(PermissionError, FileNotFoundError):
        _take_mode(lock, path)
    return lock


@contextlib.contextmanager
def locked(path: str, wait: Optional[float]) -> Iterator[None]:
    """Holds the lock of a file, which is that of `lexicat-file` too."""
    lock = _open_lock(path)
    try:
        end = None if wait is None else time.monotonic() + wait
        while not _is_taken(lock, path, end is None):
            # (so NaN is no wait)
            if end is not None and not time.monotonic() < end:
                words = f"{path} is still in use by another program after {wait} seconds"
                raise TimeoutError(words)
            time.sleep(SECONDS_BETWEEN_TRIES)
        yield
    finally:
        os.close(lock)


def _is_taken(lock: int, path: str, waits: bool) -> bool:
    """Takes an open lock, or tells that another has it."""
    try:
        fcntl.flock(lock, fcntl.LOCK_EX if waits else fcntl.LOCK_EX | fcntl.LOCK_NB)
    except BlockingIOError:
        return False
    except OSError as why:
        # (some file systems have no locks)
        raise LockFault(why.errno, why.strerror, f"{path}.lock") from None
    return True


def remove_leftovers(path: str) -> None:
    """Removes the new files of programs that were killed: only who holds the lock makes any."""
    folder, name = os.path.split(path)
    of_killed = re.compile(re.escape(name + MADE) + "[0-9a-f]{8}", re.ASCII)
    # (what cannot be removed does no harm)
    with contextlib.suppress(OSError):
        for it in filter(of_killed.fullmatch, os.listdir(folder or ".")):
            os.unlink(os.path.join(folder, it))


def _sync_folder(path: str) -> None:
    folder = os.open(os.path.dirname(path) or ".", os.O_RDONLY)
    try:
        os.fsync(folder)
    finally:
        os.close(folder)


def _mode_of_new_files() -> int:
    mask = os.umask(0)
    os.umask(mask)
    return 0o666 & ~mask


def replace(path: str, text: bytes) -> None:
    """Puts a text in place of a file: written beside it, synced, and renamed."""
    new = f"{path}{MADE}{os.urandom(4).hex()}"
    made = os.open(new, os.O_RDWR | os.O_CREAT | os.O_EXCL | os.O_CLOEXEC, 0o600)
    try:
        with os.fdopen(made, "wb") as file:
            file.write(text)
            file.flush()
            if os.path.exists(path):
                _take_mode(made, path)
            else:
                os.fchmod(made, _mode_of_new_files())
            os.fsync(made)
        os.replace(new, path)
    except BaseException:
        with contextlib.suppress(FileNotFoundError):
            os.unlink(new)
        raise
    # (the edit is made; some file systems sync no folder)
    with contextlib.suppress(OSError):
        _sync_folder(path)
