"""Application Resource Bundles, as Flutter has them: plurals are within a text, in ICU
MessageFormat. Descriptions are notes, and all else that is said of a message is kept as it is, as
JSON in the language x-arb."""
import json

from .common import (
    NOTES, Misfit, cased, json_file, note_of, plain, quoted, read_object, stated_language, the_text,
)

ATTRIBUTES = "x-arb"
KEEPS = (NOTES, ATTRIBUTES)


def read_attributes(key, value, keys, found):
    """Takes what is said of a message."""
    try:
        attributes = plain(value)
        if not isinstance(attributes, dict):
            raise Misfit("its attributes are not an object")
        if found.domain + key not in found.labels:
            raise Misfit("has attributes and no text")
        note = attributes.get("description")
        if isinstance(note, str) and note:
            del attributes["description"]
            found.beside(key, NOTES, [note])
        if attributes or not note:
            written = json.dumps(attributes, ensure_ascii=False, separators=(",", ":"))
            if len(written.encode()) > 65535:
                raise Misfit("its attributes are too long for a text")
            found.beside(key, ATTRIBUTES, [written])
    except UnicodeEncodeError:
        found.misfit(key, "its attributes are not Unicode")
    except (Misfit, RecursionError) as why:
        found.misfit(key, why)


def read(data, name, args, found):
    """Takes a file in the language that it states."""
    pairs = read_object(data, name).last("", found)
    stated = [value for key, value in pairs if key == "@@locale"]
    locale = stated[-1] if stated and isinstance(stated[-1], str) else ""
    lang = stated_language(locale, args.lang, name)
    for key, value in pairs:
        if key.startswith("@"):
            continue
        if isinstance(value, str):
            found.label(key, lang, [value])
        else:
            found.misfit(key, "is not a text")
    keys = {key for key, _ in pairs}
    for key, value in pairs:
        if key.startswith("@@"):
            if key != "@@locale":
                found.leave(f"attribute {quoted(key)} of a file")
        elif key.startswith("@"):
            read_attributes(key[1:], value, keys, found)


def write(out, args):
    """A file in one language."""
    members = {"@@locale": cased(args.lang, "_")}

    def entry_of(key, labels):
        text, attributes = the_text(labels[args.lang]), {}
        if ATTRIBUTES in labels:
            try:
                attributes = json.loads(the_text(labels[ATTRIBUTES]))
            except (ValueError, RecursionError):
                attributes = None
            if not isinstance(attributes, dict):
                raise Misfit(f"its label in {ATTRIBUTES} is not an object of JSON")
        if note_of(labels):
            attributes = {"description": note_of(labels), **attributes}
        members[key] = text
        if attributes or ATTRIBUTES in labels:
            members[f"@{key}"] = attributes

    for _ in out.entries(args.lang, entry_of):
        pass
    return json_file(members)
