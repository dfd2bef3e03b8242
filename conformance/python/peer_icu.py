"""ICU's `uloc_forLanguageTag` and `uloc_acceptLanguageFromHTTP`, from C. A tag is well-formed if it
is parsed to its end. The parts are not compared, as ICU replaces deprecated tags. ICU has no
default."""
import ctypes
import ctypes.util
import os
import re

NAME = ctypes.util.find_library("icuuc")
ICU = ctypes.CDLL(NAME)
VERSION = re.search(r"so\.(\d+)", os.path.realpath(NAME))[1]
ROOM = 512


def call(name, *given):
    """What a call gives; None if it fails."""
    fault = ctypes.c_int(0)
    function = getattr(ICU, f"{name}_{VERSION}")
    function.restype = ctypes.c_void_p if "open" in name else ctypes.c_int32
    result = function(*given, ctypes.byref(fault))
    return None if fault.value > 0 else result


def locale_of(text):
    """The locale of a tag that is parsed to its end, or None."""
    out, parsed, given = ctypes.create_string_buffer(ROOM), ctypes.c_int32(0), text.encode()
    if b"\0" in given:
        return None
    if call("uloc_forLanguageTag", given, out, ROOM, ctypes.byref(parsed)) is None:
        return None
    return out.value if parsed.value == len(given) else None


def tag(text):
    return True if text and locale_of(text) is not None else None


def lookup(text, tags, default):
    if default is not None:
        return NotImplemented
    names = [locale_of(it) for it in tags]
    if not tags or None in names:
        return NotImplemented
    many = (ctypes.c_char_p * len(names))(*names)
    held = ctypes.c_void_p(call("uenum_openCharStringsEnumeration", many, len(names)))
    out, how = ctypes.create_string_buffer(ROOM), ctypes.c_int(0)
    call("uloc_acceptLanguageFromHTTP", out, ROOM, ctypes.byref(how), text.encode(), held)
    getattr(ICU, f"uenum_close_{VERSION}")(held)
    return tags[names.index(out.value)] if how.value and out.value in names else None
