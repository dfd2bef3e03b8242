"""What readers ask of a site, whether it is open or lies in a file."""
from types import TracebackType
from typing import Any, List, NamedTuple, NoReturn, Optional, Type, TypeVar

from . import _answers
from ._answers import Choice, Label
from ._arguments import Text, flags, given_or, rules, words
from ._arguments import place as counted_place
from ._library import NOTHING, Answer

_Self = TypeVar("_Self", bound="Questions")


class Calls(NamedTuple):
    """The calls of the library that answer a reader."""

    lookup: Any
    text: Any
    filter: Any


class Questions:
    """A site that readers ask. `Site` and `MappedSite` are such sites."""

    _calls: Calls

    def share(self) -> "Questions":
        """Returns the site once more, as it is now."""
        raise NotImplementedError

    def close(self) -> None:
        """Lets the site go."""
        raise NotImplementedError

    def lookup(
        self,
        id: Text,
        field: Optional[Text],
        *,
        default: Optional[Text] = None,
        extended: bool = False,
        lenient: bool = False,
        widen: bool = False,
        offer: Optional[Text] = None,
        fallbacks: Optional[Text] = None,
    ) -> Optional[Label]:
        """Returns the label of a message that a reader gets, or None (RFC 4647 section 3.4).

        The arguments are those of `pick`. Without an `offer` readers are offered all languages but
        those of private use, as `x-note`.

        Refused: the id (10), the default (1 to 4), the offer (8, 9), the fallbacks (8, 31), the
        field (8, 9).
        """
        texts = words(id=id, field=given_or(field, "*"), default=given_or(default, ""))
        how = flags(extended, lenient, widen)
        answer = self._ask(self._calls.lookup, rules(offer, fallbacks), how, *texts)
        return None if answer.status == NOTHING else _answers.label(answer.text.decode())

    def text(
        self,
        id: Text,
        field: Optional[Text],
        *,
        default: Optional[Text] = None,
        place: int = 0,
        extended: bool = False,
        lenient: bool = False,
        widen: bool = False,
        offer: Optional[Text] = None,
        fallbacks: Optional[Text] = None,
    ) -> Optional[str]:
        """Returns the text at a place, from 0, of the label that `lookup` finds, or None."""
        texts = words(id=id, field=given_or(field, "*"), default=given_or(default, ""))
        how = flags(extended, lenient, widen)
        asked = [rules(offer, fallbacks), how, *texts, counted_place(place)]
        answer = self._ask(self._calls.text, *asked)
        return None if answer.status == NOTHING else answer.text.decode()

    def texts(
        self,
        id: Text,
        field: Optional[Text],
        *,
        default: Optional[Text] = None,
        extended: bool = False,
        lenient: bool = False,
        widen: bool = False,
        offer: Optional[Text] = None,
        fallbacks: Optional[Text] = None,
    ) -> Optional[List[str]]:
        """Returns all texts of the label that `lookup` finds, or None."""
        how = {"extended": extended, "lenient": lenient, "widen": widen}
        label = self.lookup(id, field, default=default, offer=offer, fallbacks=fallbacks, **how)
        return None if label is None else label.texts

    def filter(
        self,
        id: Text,
        field: Optional[Text],
        *,
        extended: bool = False,
        lenient: bool = False,
        offer: Optional[Text] = None,
    ) -> List[Choice]:
        """Returns the labels of a message that a reader takes, best first (RFC 4647 section 3.3).

        Refused: the id (10), the offer, then the field (each 8, 9).
        """
        texts = words(id=id, field=given_or(field, "*"))
        how = flags(extended, lenient)
        answer = self._ask(self._calls.filter, rules(offer), how, *texts)
        return _answers.choices(answer.text.decode())

    def _ask(self, call: Any, *given: Any) -> Answer:
        raise NotImplementedError

    def __copy__(self) -> "Questions":
        return self.share()

    def __reduce__(self) -> NoReturn:
        # (which copy.deepcopy calls too)
        raise TypeError(
            f"a {type(self).__name__} is neither pickled nor copied deeply: share() gives another"
            " one of its site, and without shared memory its document has to be opened"
            " anew"
        )

    def __enter__(self: _Self) -> _Self:
        return self

    def __exit__(
        self,
        kind: Optional[Type[BaseException]],
        fault: Optional[BaseException],
        trace: Optional[TracebackType],
    ) -> None:
        self.close()
