"""The site of a file that other programs replace."""
import errno
import logging
import os
import stat
import threading
import time
from typing import BinaryIO, Optional, Tuple, Union

from ._refusals import Refused
from ._site import Site

# Seconds; more of them if a file, such as a large one that is broken, takes long to read each
# time, so that reading takes this part of a thread's time at most.
LOOK_EVERY = 1
GREATEST_LOAD = 0.1
# Seconds that the one who asks waits for the new state, and has the old one then.
LONGEST_WAIT = 0.05

_log = logging.getLogger("silkwaram")

Path = Union[str, "os.PathLike[str]"]


def state_of(it: os.stat_result) -> Tuple[int, ...]:
    """What changes when a file is replaced, or written in place."""
    return (it.st_dev, it.st_ino, it.st_size, it.st_mtime_ns, it.st_ctime_ns)


def open_plain(path: Path) -> BinaryIO:
    """Opens a file to read its bytes. What is no plain file is an OSError: nobody waits for a
    FIFO."""
    file = os.open(path, os.O_RDONLY | os.O_CLOEXEC | os.O_NONBLOCK)
    mode = os.fstat(file).st_mode
    if stat.S_ISREG(mode):
        return open(file, "rb")
    os.close(file)
    name = os.fspath(path)
    if stat.S_ISDIR(mode):
        raise IsADirectoryError(errno.EISDIR, os.strerror(errno.EISDIR), name)
    raise OSError(errno.EINVAL, "not a plain file", name)


class SiteFile:
    """The site of a file, which is read anew when the file was replaced.

    The file is looked at once a second at most, when a share is asked for, and by a thread of its
    own, so that nobody waits long for the reading of a large file. A file that is missing or broken
    leaves the site as it was; a warning is logged once for each fault, and the file is tried again.
    """

    def __init__(self, path: Path) -> None:
        """Reads the file.

        Refused: as by `Site.open`. A file that cannot be read is an OSError.
        """
        self._path = os.fspath(path)
        self._site: Site
        self._state: Optional[Tuple[int, ...]] = None
        self._fault: Optional[str] = None
        self._process = os.getpid()
        # (held while the file is looked at)
        self._lock = threading.Lock()
        self._read()
        self._next_look = time.monotonic() + LOOK_EVERY

    def share(self) -> Site:
        """Returns a share of the latest state that could be read."""
        if self._process != os.getpid():
            self._begin_in_child()
        lock = self._lock
        if time.monotonic() >= self._next_look and lock.acquire(blocking=False):
            look = threading.Thread(target=self._look, args=(lock,), daemon=True)
            try:
                look.start()
            except RuntimeError:  # there is no thread to be had
                self._look(lock)
            else:
                look.join(LONGEST_WAIT)
        return self._site.share()

    def _begin_in_child(self) -> None:
        """Has the file read by a forked process, in which no thread holds the lock."""
        self._lock = threading.Lock()
        self._state, self._next_look = None, 0.0
        self._process = os.getpid()

    def _look(self, lock: threading.Lock) -> None:
        """Reads the file if it changed, and lets the lock go."""
        began = time.monotonic()
        try:
            self._read()
            self._fault = None
        except (OSError, MemoryError, Refused) as fault:
            self._warn(str(fault) or type(fault).__name__)
        finally:
            ended = time.monotonic()
            self._next_look = ended + max(LOOK_EVERY, (ended - began) / GREATEST_LOAD)
            lock.release()

    def _read(self) -> None:
        with open_plain(self._path) as file:
            state = state_of(os.fstat(file.fileno()))
            if state != self._state:
                self._site = Site.open(file.read())
                self._state = state

    def _warn(self, fault: str) -> None:
        if fault != self._fault:
            _log.warning("%s is not read anew, and the site stays: %s", self._path, fault)
        self._fault = fault
