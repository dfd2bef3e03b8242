"""Questions about tags alone, without a site."""
from typing import Iterable, List, Optional

from ._answers import TagChoice, tag_choices
from ._arguments import Text, flags, given_or, lines, rules, words
from ._library import NOTHING, answered, library
from ._refusals import checked

# Without an offer these questions are of all tags, since the caller lists them.
_ALL = "*"


def pick(
    field: Optional[Text],
    tags: Iterable[str],
    *,
    default: Optional[Text] = None,
    extended: bool = False,
    lenient: bool = False,
    widen: bool = False,
    offer: Optional[Text] = None,
    fallbacks: Optional[Text] = None,
) -> Optional[str]:
    """Returns the tag that a reader gets, as it is in `tags`, or None (RFC 4647 section 3.4).

    `field` is what the Accept-Language header has; None, if there is none, counts as `*`. The
    default is answered if nothing else is, it is among the tags, and the field does not refuse it.
    With `extended` the field is a list of extended ranges without weights; with `lenient` its
    malformed elements are skipped; with `widen` a language also finds its regions, as `en` finds
    `en-US`, which RFC 4647's lookup does not.

    `offer` says which of the tags readers are offered, as an Accept-Language header is written;
    without it all. By `fallbacks`, a table as `zh-TW=zh-Hant, no=nb`, a language finds the one that
    is next to it, before its regions; the default does not.

    Refused: the default (1 to 4), the offer (8, 9), the fallbacks (8, 31), the field (8, 9), the
    tags in their order (1 to 4).
    """
    texts = words(field=given_or(field, "*"), tags=lines(tags), default=given_or(default, ""))
    asked = [flags(extended, lenient, widen), rules(offer, fallbacks, _ALL), *texts]
    answer = checked(answered(library.sw_pick, *asked))
    return None if answer.status == NOTHING else answer.text.decode()


def filter_tags(
    field: Optional[Text],
    tags: Iterable[str],
    *,
    extended: bool = False,
    lenient: bool = False,
    offer: Optional[Text] = None,
) -> List[TagChoice]:
    """Returns the tags that a reader takes, best first, as they are in `tags` (RFC 4647 section
    3.3).

    The arguments are those of `pick`. A tag that is there twice is answered twice.

    Refused: the offer, then the field (each 8, 9), the tags in their order (1 to 4).
    """
    texts = words(field=given_or(field, "*"), tags=lines(tags))
    asked = [flags(extended, lenient), rules(offer, without=_ALL), *texts]
    answer = checked(answered(library.sw_filter, *asked))
    return tag_choices(answer.text.decode())
