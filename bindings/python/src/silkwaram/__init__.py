"""Which language, and which label, a reader gets; and sites of labels that are edited apart.

The answers and edits are those of Silkwaram's library for C, which is proved; this package calls it
by ctypes. A question takes some microseconds, as no process is started and a site is read once:

    from silkwaram import Site
    site = Site.open(open("paris.json", "rb").read())
    print(site.text("greeting", "fr-CA, en;q=0.5"))

`mapped` asks a large file where it lies. `pick` and `filter_tags` choose among tags, without a site
(RFC 4647). A `field` is what the reader's Accept-Language header holds, several of them joined with
commas; None, if the request has none, counts as `*`. What is refused raises `Refused`.

`edit` changes the file of a site in place, under a lock:

    with silkwaram.edit("paris.json") as site:
        site.put("greeting", "fr", "Bonjour")

Sites that were edited apart exchange deltas, and hold the same labels then, whatever was edited
where and however often a delta comes:

    tokyo.take(paris.delta_for(tokyo.summary()))
"""
from importlib import import_module
from typing import TYPE_CHECKING, Any, List

if TYPE_CHECKING:
    from ._answers import Cell, Change, Choice, Label, Stamp, Status, TagChoice
    from ._edit import edit
    from ._library import library_version
    from ._mapped import MappedSite, mapped
    from ._pick import filter_tags, pick
    from ._refusals import Refused
    from ._site import Site

__version__ = "0.4.0"
__all__ = [
    "Cell", "Change", "Choice", "Label", "MappedSite", "Refused", "Site", "Stamp", "Status",
    "TagChoice", "edit", "filter_tags", "library_version", "mapped", "pick",
]
# Where each name is. The library is loaded by the first that is used, as programs on files
# (`silkwaram.tools`) want none of them.
_PLACES = {
    **dict.fromkeys("Cell Change Choice Label Stamp Status TagChoice".split(), "_answers"),
    **dict.fromkeys(("MappedSite", "mapped"), "_mapped"),
    **dict.fromkeys(("filter_tags", "pick"), "_pick"),
    "Refused": "_refusals",
    "Site": "_site",
    "edit": "_edit",
    "library_version": "_library",
}


def __getattr__(name: str) -> Any:
    if name not in _PLACES:
        raise AttributeError(f"module {__name__!r} has no attribute {name!r}")
    library_version = import_module("._library", __name__).library_version
    if library_version()[:2] != tuple(map(int, __version__.split(".")))[:2]:
        raise ImportError(f"silkwaram {__version__} does not fit the library {library_version()}")
    globals()[name] = value = getattr(import_module(f".{_PLACES[name]}", __name__), name)
    return value


def __dir__() -> List[str]:
    return sorted({*globals(), *__all__})
