"""The site of the server: what is asked of it, and what it takes."""
import hashlib
import os
import threading
from typing import Any, NamedTuple, Optional, Tuple

from silkwaram import Site, edit
from silkwaram._site_file import open_plain, state_of
from silkwaram.tools._shared import MILLISECONDS_OF_A_DAY, clock

# Seconds that an exchange waits for who else has the lock of the file.
LONGEST_WAIT = 10.0


class State(NamedTuple):
    """What a file had when it was read: its site, and what names this state."""

    file: Tuple[int, ...]
    site: Site
    tag: str


def _tag(site: Site) -> str:
    return f'"{hashlib.sha256(site.to_bytes()).hexdigest()[:24]}"'


class Exchange:
    """The file of a site, which others may edit too. It is read anew if it was replaced."""

    def __init__(self, path: str, name: str) -> None:
        """Makes the file if it is not there. Refused: as by `silkwaram.edit`."""
        self._path = path
        self._lock = threading.Lock()
        self._state: Optional[State] = None
        with edit(path, create=name, wait=LONGEST_WAIT):
            pass
        self.current()

    def current(self) -> Tuple[Site, str]:
        """A share of the site as the file has it, and what names this state."""
        with self._lock:
            with open_plain(self._path) as file:
                found = state_of(os.fstat(file.fileno()))
                if self._state is None or self._state.file != found:
                    site = Site.open(file.read())
                    self._state = State(found, site, _tag(site))
            return self._state.site.share(), self._state.tag

    def tag(self) -> str:
        """What names the present state."""
        site, tag = self.current()
        site.close()
        return tag

    def summary(self) -> Tuple[bytes, str]:
        """The summary of the site, and what names this state."""
        site, tag = self.current()
        with site:
            return site.summary(), tag

    def delta_for(self, summary: bytes) -> Tuple[bytes, str]:
        """The delta for the owner of a summary, and what names the state that it is of."""
        site, tag = self.current()
        with site:
            return site.delta_for(summary), tag

    def take(self, by: str, delta: bytes) -> Tuple[str, str]:
        """Takes a delta of somebody. Answers what names the states before and after it.

        Refused: as by `Site.take`, with the clock and a day as its limit.
        """
        with edit(self._path, wait=LONGEST_WAIT, log=f"the editor of {by}") as site:
            before = _tag(site)
            site.take(delta, not_after=clock() + MILLISECONDS_OF_A_DAY)
            return before, _tag(site)

    def update(self, by: str, old: Any, new: Any) -> None:
        """Makes the edits of somebody that lead from some language maps to others."""
        with edit(self._path, wait=LONGEST_WAIT, log=f"a PO file of {by}") as site:
            site.update(old, new)

    def document(self) -> bytes:
        """The document of the site."""
        with self.current()[0] as site:
            return site.to_bytes()
