"""PO files of the server's site."""
import threading
from typing import List, Tuple

from silkwaram.tools import po
from silkwaram.tools._shared import Fault

# (one at a time: each takes some times the bytes of its file)
_running = threading.Lock()


class PoFault(Exception):
    """Why there is no PO file, or why one is not taken."""


def po_of(document: bytes, lang: str, source: str) -> bytes:
    """The PO file of a language of a site."""
    with _running:
        try:
            return po.po_of(document, lang, source)
        except (Fault, UnicodeEncodeError) as fault:
            raise PoFault(str(fault)) from None


def edits_in(
    document: bytes, file: bytes, lang: str, source: str
) -> Tuple[bytes, bytes, List[str]]:
    """The old and new language maps of what is translated in a PO file, and what is said of it."""
    with _running:
        try:
            return po.edits_of_file(document, file, lang, source)
        except (Fault, UnicodeEncodeError) as fault:
            raise PoFault(str(fault)) from None
