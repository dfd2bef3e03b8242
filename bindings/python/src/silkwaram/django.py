"""Middleware for Django, in place of its `LocaleMiddleware`, and the labels of a site.

    MIDDLEWARE = [.., "silkwaram.django.LocaleMiddleware", ..]
    SILKWARAM_SITE = BASE_DIR / "site.json"

The middleware is Django's own, with its URL prefixes (`i18n_patterns`), cookie, redirects, headers
and default. What differs is how the header is read: by `silkwaram.pick`, so that what is malformed
of a field is skipped, and a language of weight 0 is refused. A language finds what Django's
fallbacks name, as `zh-CN` finds `zh-hans`, and its regions, as `pt` finds `pt-br`; if
`SILKWARAM_WIDEN` is False, it finds neither, as RFC 4647's lookup has it.

`label` gives views the labels of the file that `SILKWARAM_SITE` names, and the template tag of the
app `silkwaram` gives them to templates. If `SILKWARAM_MAPPED` is True, the file is asked where it
lies (`silkwaram.mapped`), and not opened. `SILKWARAM_OFFER` says which languages readers are
offered, as an Accept-Language header is written; without it all but those of private use.

`SILKWARAM_FALLBACKS` is a table of fallbacks of your own, as `zh-TW=zh-Hant, no=nb`, for the header
and for labels: a language finds the one that is next to it there first.
"""
import contextlib
import functools
from typing import Any, Dict, Optional, Union

from django.conf import settings
from django.conf.locale import LANG_INFO
from django.core.exceptions import ImproperlyConfigured
from django.core.signals import setting_changed
from django.dispatch import receiver
from django.middleware import locale
from django.utils.translation import get_language, get_supported_language_variant

from . import Label, MappedSite, Refused, filter_tags, pick
from ._questions import Questions
from ._site_file import SiteFile

__all__ = ["LocaleMiddleware", "label"]

HEADER = "HTTP_ACCEPT_LANGUAGE"
# Fields whose codes are kept, since readers send few different ones, and the length of the longest.
KEPT_FIELDS = 1000
KEPT_LENGTH = 500
# The settings by which they are found.
KEPT_OF = ("LANGUAGES", "LANGUAGE_CODE", "SILKWARAM_FALLBACKS", "SILKWARAM_WIDEN", "USE_I18N")


class LocaleMiddleware(locale.LocaleMiddleware):  # type: ignore[misc]
    """Activates the language of the reader for a request; see the module."""

    def __init__(self, get_response: Any) -> None:
        """Refused: SILKWARAM_FALLBACKS (8, 31), the codes of LANGUAGES (1 to 4)."""
        super().__init__(get_response)
        pick(None, _codes(), fallbacks=_fallbacks())

    def process_request(self, request: Any) -> None:
        """Activates the language. Django's middleware reads a header that has one code alone."""
        meta = request.META
        request.META = {**meta, HEADER: _code(meta.get(HEADER, ""))}
        try:
            super().process_request(request)
        finally:
            request.META = meta


def label(request: Any, id: str) -> Optional[Label]:
    """Returns the label of a message in the active language, or else in LANGUAGE_CODE, or None.

    Within one request all labels come from the same version of the file. The request may be None.

    Refused: the id (10), SILKWARAM_OFFER (8, 9), SILKWARAM_FALLBACKS (8, 31), the file as by
    `Site.open`. A file that cannot be read is an OSError.
    """
    field = f"{get_language() or settings.LANGUAGE_CODE}, {settings.LANGUAGE_CODE}"
    return _site(request).lookup(
        id, field, lenient=True, widen=_widens(), offer=_offer(), fallbacks=_fallbacks()
    )


def _site(request: Any) -> Questions:
    """A share of the site, which a request keeps."""
    path = getattr(settings, "SILKWARAM_SITE", None)
    if path is None:
        raise ImproperlyConfigured("SILKWARAM_SITE names no file")
    site: Optional[Questions] = getattr(request, "_silkwaram_site", None)
    if site is None:
        site = _site_file(path, bool(getattr(settings, "SILKWARAM_MAPPED", False))).share()
        if request is not None:
            request._silkwaram_site = site
    return site


@functools.lru_cache(maxsize=None)
def _site_file(path: Any, is_mapped: bool) -> Union[SiteFile, MappedSite]:
    return MappedSite(path) if is_mapped else SiteFile(path)


def _offer() -> Optional[str]:
    return getattr(settings, "SILKWARAM_OFFER", None)


def _fallbacks() -> Optional[str]:
    return getattr(settings, "SILKWARAM_FALLBACKS", None)


def _widens() -> bool:
    return bool(getattr(settings, "SILKWARAM_WIDEN", True))


@functools.lru_cache(maxsize=None)
def _codes() -> Dict[str, str]:
    """The tags that a header may ask for, each with the code that Django has for it."""
    # (no header has a code such as sr@latin, which is no tag)
    tags = [code for code, _ in settings.LANGUAGES if "@" not in code]
    if _widens():
        tags += [code for code, info in LANG_INFO.items() if "fallback" in info]
    codes = {}
    for tag in tags:
        with contextlib.suppress(LookupError):
            codes[tag] = get_supported_language_variant(tag, strict=True)
    return codes


@receiver(setting_changed)  # type: ignore[misc]
def _forget_codes(*, setting: str, **_: Any) -> None:
    """Has the codes made anew if a test changes a setting."""
    if setting in KEPT_OF:
        _codes.cache_clear()
        _kept_code.cache_clear()


def _code(field: str) -> str:
    """The code of LANGUAGES that a field asks for, or an empty text."""
    return _kept_code(field) if len(field) <= KEPT_LENGTH else _found_code(field)


@functools.lru_cache(maxsize=KEPT_FIELDS)
def _kept_code(field: str) -> str:
    return _found_code(field)


def _found_code(field: str) -> str:
    sent = field.encode("latin-1", "replace")
    try:
        codes = _not_refused(_codes(), sent)
        if _widens():
            # (as by Django, a language that is not there is the first of its regions)
            for code in list(codes.values()):
                codes.setdefault(code.split("-")[0], code)
        tag = pick(sent, codes, lenient=True, fallbacks=_fallbacks())
    except Refused:
        return ""
    return "" if tag is None else codes[tag]


def _not_refused(codes: Dict[str, str], field: bytes) -> Dict[str, str]:
    """Those of the codes to which a field gives no weight of 0."""
    # ("*" before the rest of the field gives a weight to each code that the rest does not name)
    fitting = {it.tag for it in filter_tags(b"*, " + field, codes.values(), lenient=True)}
    return {tag: code for tag, code in codes.items() if code in fitting}
