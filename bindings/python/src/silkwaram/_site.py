"""Sites that are open: their labels, edits of them, and what they exchange."""
import json
import threading
from typing import Any, Dict, List, Mapping, Optional, Union

from . import _answers
from ._answers import Change, LanguageMaps, Status
from ._arguments import Text, flags, given_or, limit, moment, rules, words, wrong_type
from ._library import (
    CHECK_OWN, FIRST_ROOM, LABELS, USAGE, Answer, Handle, Told, answered, done, library,
)
from ._questions import Calls, Questions
from ._refusals import NOT_JSON, Refused, checked

# Language maps: their JSON text, or what `json.dumps` makes it of.
Maps = Union[Text, Mapping[str, Any]]
MAX_NAME = 255


def _may_be_name(document: Text) -> bool:
    """Whether a text that is no document may be the name of one."""
    return isinstance(document, str) and 0 < len(document) <= MAX_NAME and "{" not in document


def _json_text(maps: Maps) -> Text:
    """The text of language maps."""
    if not isinstance(maps, Mapping):
        return maps
    for it in (maps, *(labels for labels in maps.values() if isinstance(labels, Mapping))):
        for name in it:
            # (`json.dumps` would make "null" of None, which is a language)
            if not isinstance(name, str):
                raise wrong_type("an id or a language", "str", name)
    return json.dumps(maps, ensure_ascii=False)


class _Held(Handle):
    """A handle that lets its site go when nothing refers to it any more."""

    def __del__(self) -> None:
        library.sw_site_free(self)


class Site(Questions):
    """A site that is open: what its messages say, in which languages.

    It is opened by `Site.open`, or made by `Site.new`, and closed by `close`, by the end of a
    `with` block, or when it is not used any more. A copy of it is a `share`; it is neither copied
    deeply nor pickled.

    Edits (`put`, `delete`, `import_maps`, `update`) and exchanges (`take`, `merge`) change the open
    site alone: `to_bytes` gives its document, and `silkwaram.edit` keeps a file of it. An edit that
    is refused leaves the site as it was. (A `MemoryError` of `take` or `merge` leaves each label as
    it was or as it was to be; the same call again makes the rest.) Shares keep what they held. Edit
    by one `Site`, and ask by the others: two that both edit would be two sites of one name.

    Threads: any thread may ask a site. The calls to one `Site` wait for each other; threads that
    are to ask at once take a `Site` each, by `share`, which copies nothing. After a fork the child
    opens its own.
    """

    _calls = Calls(library.sw_site_lookup, library.sw_site_text, library.sw_site_filter)

    def __init__(self) -> None:
        """Makes a site that is closed. Call `Site.open` or `Site.new`."""
        self._handle = _Held()
        # (held by a call that uses the handle, and by one that reads a document)
        self._lock, self._reading = threading.RLock(), threading.RLock()
        # (how large the documents of this site were so far)
        self._size = 0

    @classmethod
    def open(cls, document: Text) -> "Site":
        """Returns the site of a document: of its text, or its bytes, or a buffer such as an mmap.

        Refused: what is no site document (18 to 21, 27, 28), and a field of a row (1 to 4, 10 to
        12).
        """
        site = cls()
        site.reload(document)
        return site

    @classmethod
    def new(cls, name: Text) -> "Site":
        """Returns the empty site of a name, of 1 to 16 of a to z, 0 to 9 and "-" (else 27).

        No two sites that exchange may have one name.
        """
        site = cls()
        checked(done(library.sw_site_new, *words(name=name), site._handle))
        return site

    def reload(self, document: Text) -> None:
        """Reads a document in place of the site, which stays if the document is refused.

        Until the document is read the old site answers, and no question waits. One reload waits for
        another. A site that was closed is open then.

        Refused: as by `open`.
        """
        texts = words(document=document)
        handle = _Held()
        with self._reading:
            answer = done(library.sw_site_open, *texts, handle)
            if answer.told.number == NOT_JSON and _may_be_name(document):
                raise Refused(NOT_JSON, wanted="the document itself is wanted, not its name")
            checked(answer)
            with self._lock:
                # (the old site is let go after that, with `handle`)
                handle, self._handle = self._handle, handle
                self._size = len(texts[0])

    def share(self) -> "Site":
        """Returns one more `Site` of the same site, for another thread. The memory is shared."""
        other = Site()
        with self._lock:
            status = library.sw_site_share(self._handle, other._handle)
        self._checked(Answer(status, Told(), b""))
        return other

    def close(self) -> None:
        """Lets the site go. Calls are ValueErrors then, and closing it again does nothing."""
        with self._lock:
            library.sw_site_free(self._handle)

    # What a reader gets, beside the questions of every site.

    def bundle(
        self,
        field: Optional[Text],
        *,
        default: Optional[Text] = None,
        extended: bool = False,
        lenient: bool = False,
        widen: bool = False,
        offer: Optional[Text] = None,
        fallbacks: Optional[Text] = None,
    ) -> LanguageMaps:
        """Returns all labels of one reader: of each message the one that `lookup` finds.

        It is under its language; a label of one text is that text, one of several a list. The
        languages of the site are ranked by the field once. To keep the answer for other readers,
        `pick` a tag first and bundle for that.

        Refused: the default (1 to 4), the offer (8, 9), the fallbacks (8, 31), the field (8, 9).
        """
        texts = words(field=given_or(field, "*"), default=given_or(default, ""))
        how = flags(extended, lenient, widen)
        return self._maps(library.sw_site_bundle, rules(offer, fallbacks), how, *texts)

    # What a translator or an editor asks.

    def export(self) -> LanguageMaps:
        """Returns all labels, by message and language."""
        return self._maps(library.sw_site_export)

    def missing(self, lang: Text) -> LanguageMaps:
        """Returns the messages that have labels, but none in just this language, with all of these.

        Refused: the language (1 to 4).
        """
        return self._maps(library.sw_site_missing, *words(lang=lang))

    def outdated(self, lang: Text, source: Text) -> LanguageMaps:
        """Returns the messages whose label in `source` was edited at a later time than in `lang`.

        They come with all their labels; only messages with a label in both languages count.

        Refused: the language, then the source (1 to 4).
        """
        return self._maps(library.sw_site_outdated, *words(lang=lang, source=source))

    def changes(self, after: "Site") -> List[Change]:
        """Returns the cells in which another site differs from this one, in the order of their
        keys.

        `after` may be a share that was taken before an edit, or any other site.
        """
        return _answers.changes(self._changes_lines(after))

    def _changes_lines(self, after: "Site") -> str:
        """What the command `changes` prints."""
        with after.share() as other:
            return self._ask(library.sw_site_changes, other._handle).text.decode()

    def status(self) -> Status:
        """Returns the name of the site, how large it is, and its latest stamp."""
        return _answers.status(self._ask(library.sw_site_status).text.decode())

    def labels(self) -> Dict[str, int]:
        """Returns how many labels each language has, in rising order of the languages."""
        return _answers.counts(self._ask(library.sw_site_labels).text.decode())

    def to_bytes(self) -> bytes:
        """Returns the document of the site, which `Site.open` and the command read."""
        return self._document(library.sw_site_write)

    # Edits.

    def put(self, id: Text, lang: Text, text: Text, now: Optional[int] = None) -> None:
        """Puts a label of one text, which takes the place of the label that is there.

        `now` is the time of the edit, in milliseconds if all sites count so; None is the clock.
        Labels of several texts are put by `import_maps` and `update`.

        Refused: the id (10), the language (1 to 4), the text (18, 11); any edit (14) if the
        site has a stamp so late that none comes after it.
        """
        self._edit(library.sw_site_put, moment(now), *words(id=id, lang=lang, text=text))

    def delete(self, id: Text, lang: Text, now: Optional[int] = None) -> None:
        """Deletes a label. The deletion is kept, so that no older label comes back.

        Refused: as by `put`, without the text.
        """
        self._edit(library.sw_site_delete, moment(now), *words(id=id, lang=lang))

    def import_maps(self, maps: Maps, now: Optional[int] = None) -> None:
        """Puts each label of language maps, a dict or their JSON text: all of them or none.

        A label that is there already is put too, with a new stamp; `update` puts only what differs.

        Refused: what is no JSON text of language maps (18 to 20, 22), and a label of it (1 to 4, 10
        to 12); any edit (14) as by `put`.
        """
        self._edit(library.sw_site_import, moment(now), *words(maps=_json_text(maps)))

    def update(self, old: Maps, new: Maps, now: Optional[int] = None) -> None:
        """Makes the edits by which language maps as they were became what they are now, all or
        none.

        A label that `new` has, and `old` has not or has otherwise, is put; one that only `old` has
        is deleted. All else stays, so what others have edited since is not overridden.

        Refused: as by `import_maps`, the old ones before the new ones (`of_second`).
        """
        texts = words(old=_json_text(old), new=_json_text(new))
        self._edit(library.sw_site_update, moment(now), *texts)

    # Exchange.

    def summary(self, labels: bool = False) -> bytes:
        """Returns the summary by which another site finds what this one lacks.

        With `labels` it has a digest of each label too. The delta for it also has each cell whose
        label differs under the same stamp, so that taking it refuses what a merge refuses (13).
        """
        return self._document(library.sw_site_summary, LABELS * bool(labels))

    def delta_for(self, summary: Text) -> bytes:
        """Returns the cells that the owner of a summary lacks, for its `take`.

        Refused: what is no summary (18 to 21, 27, 28), and a field of a row (1 to 4, 10).
        """
        return self._ask(library.sw_site_delta, *words(summary=summary)).text

    def take(
        self, delta: Text, not_after: Optional[int] = None, check_own: bool = False
    ) -> None:
        """Joins the cells of a delta that was made for this site. It may come twice, or late.

        `not_after` is the latest time that is taken, such as the clock and a day. A time far ahead
        pushes every site that takes it into the future, and after the greatest time no edit is
        possible. None is no limit. With `check_own` an edit that this site made and lacks is refused, which shows that
        the site was put back to an older copy.

        Refused: what is no delta (18 to 21, 27, 28), and a field of a row (1 to 4, 10 to 12); a
        time after the limit (29); a delta for another site (15); an edit of this site that it lacks
        (30); a clash, two labels of one stamp (13).
        """
        checks, texts = CHECK_OWN * bool(check_own), words(delta=delta)
        self._edit(library.sw_site_take, checks, *texts, limit(not_after))

    def merge(
        self, other: "Site", not_after: Optional[int] = None, check_own: bool = False
    ) -> None:
        """Joins the cells of another site, which stays as it is. The checks are those of `take`.

        A MemoryError may leave it partly joined, and the same call again makes the rest.

        Refused, and then no cell is joined: a time after the limit (29); an edit of this site that
        it lacks (30); a clash, two labels of one stamp (13).
        """
        if not isinstance(other, Site):
            raise TypeError(f"other must be Site, not {type(other).__name__}")
        if other is self:
            return
        with other.share() as taken:
            checks = CHECK_OWN * bool(check_own)
            self._edit(library.sw_site_merge, checks, taken._handle, limit(not_after))

    def _maps(self, call: Any, *given: Any) -> LanguageMaps:
        maps: LanguageMaps = json.loads(self._ask(call, *given).text)
        return maps

    def _document(self, call: Any, *given: Any) -> bytes:
        """A document of the site, with room for it to have grown, as a second call makes it
        anew."""
        text = self._ask(call, *given, room=FIRST_ROOM + self._size + self._size // 8).text
        self._size = max(self._size, len(text))
        return text

    def _ask(self, call: Any, *given: Any, room: int = FIRST_ROOM) -> Answer:
        with self._lock:
            answer = answered(call, self._handle, *given, room=room)
        return self._checked(answer)

    def _edit(self, call: Any, *given: Any) -> None:
        with self._lock:
            answer = done(call, self._handle, *given)
        self._checked(answer)

    def _checked(self, answer: Answer) -> Answer:
        if answer.status == USAGE:
            raise ValueError("the site is closed")
        return checked(answer)
