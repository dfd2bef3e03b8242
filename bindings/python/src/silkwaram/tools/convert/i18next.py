"""JSON files of i18next (its JSON format v4): nested keys, whose names with dots between them are
the ids, and keys with plural suffixes, which together are a label of several texts. Arrays of
texts are such labels too. Contexts and ordinals are part of the key. The format `json` is the same
with keys as they are, and without plurals."""
from . import plurals
from .common import (
    ARRAY, DEPTH, FORMS, PLURAL, Misfit, Pairs, Refused, can_be_label, is_plural, json_file,
    read_object, stated_language,
)

KEEPS = (FORMS,)


def plurals_in(pairs, lang, args):
    """The keys of an object with plural suffixes that are all that the language has, and no other:
    their texts by what is before the suffix."""
    # (what is left out has no part in this)
    taken = {key: value for key, value in pairs
             if can_be_label((key,)) and (
                 value if isinstance(value, Pairs) else is_array(value) and can_be_label(value)
                 or isinstance(value, str) and can_be_label((value,)))}
    forms, found = {}, {}
    for key, value in taken.items():
        base, suffix, name = key.rpartition("_")
        if suffix and base and name in plurals.ORDER and isinstance(value, str):
            forms.setdefault(base, {})[name] = value
    for base, texts in forms.items():
        if "other" not in texts or base in taken:
            continue
        try:
            found[base] = plurals.texts_of(texts, lang, args.plurals), texts
        except Misfit:
            continue
    return found


def is_array(value):
    """Whether a value is an array of texts."""
    return isinstance(value, list) and not isinstance(value, Pairs) and value != [] and all(
        isinstance(text, str) for text in value)


def read_value(value, key, lang, found):
    """Takes the value of one key, which is no object."""
    if isinstance(value, str):
        found.label(key, lang, [value])
    elif value is None:
        found.leave("null")
    elif is_array(value):
        if found.label(key, lang, value):
            found.beside(key, FORMS, [ARRAY])
    else:
        found.misfit(key, "is neither a text nor an array of texts")


def walk(pairs, above, lang, found, args, depth=0):
    """Takes what an object has."""
    if depth > DEPTH:
        raise Refused(f"{found.name}: nested more than {DEPTH} deep")
    if not pairs:
        found.leave("empty objects")
    pairs = pairs.last(above, found)
    several = {} if args.format == "json" else plurals_in(pairs, lang, args)
    for base, (texts, _) in several.items():
        if not args.flat and "." in base:
            continue
        if found.label(above + base, lang, texts) and len(texts) == 1:
            found.beside(above + base, FORMS, [PLURAL])
    for key, value in pairs:
        base, _, name = key.rpartition("_")
        if not args.flat and "." in key:
            found.misfit(above + key, "has a dot in its key: --flat takes keys as they are")
        elif base in several and name in several[base][1]:
            continue
        elif not isinstance(value, Pairs):
            read_value(value, above + key, lang, found)
        elif args.flat:
            found.misfit(above + key, "is an object, and --flat takes none")
        else:
            walk(value, f"{above}{key}.", lang, found, args, depth + 1)


def read(data, name, args, found):
    """Takes a file in one language."""
    lang = stated_language("", args.lang, name)
    walk(read_object(data, name), "", lang, found, args)


def put(tree, path, value):
    """Puts a text below its keys."""
    if "__proto__" in path:
        raise Misfit("JavaScript takes the key __proto__ for something else")
    for key in path[:-1]:
        tree = tree.setdefault(key, {})
        if not isinstance(tree, dict):
            raise Misfit("a part of its id is the id of another message")
    if path[-1] in tree:
        raise Misfit("its id is the beginning of other ones, or has another message in its place")
    tree[path[-1]] = value


def write(out, args):
    """A file in one language."""
    tree = {}

    def entry_of(key, labels):
        texts, path = labels[args.lang], [key] if args.flat else key.split(".")
        is_list = args.format == "json" and len(texts) > 1
        if is_list or labels.get(FORMS) == (ARRAY,):
            put(tree, path, list(texts))
        elif args.format != "json" and (len(texts) > 1 or is_plural(labels)):
            forms = plurals.forms_of(texts, args.lang, args.plurals)
            keys = [path[:-1] + [f"{path[-1]}_{name}"] for name in plurals.ORDER if name in forms]
            check = {}
            for it in keys:
                put(check, it, "")
            for it, name in zip(keys, (name for name in plurals.ORDER if name in forms)):
                put(tree, it, forms[name])
        else:
            put(tree, path, texts[0])

    for _ in out.entries(args.lang, entry_of):
        pass
    return json_file(tree)
