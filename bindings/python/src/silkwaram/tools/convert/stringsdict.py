"""Plurals of iOS and macOS (Localizable.stringsdict). An entry whose format is just one variable
named value, of the type d, is a label of several texts. Of any other the format is a label of one
text under its key, and the forms of each variable are a label under KEY#VARIABLE, whose type is
kept in x-apple."""
import re

from . import plurals, xml_text
from .common import ARRAY, FORMS, PLURAL, Misfit, Refused, is_plural, quoted, stated_language

TYPE = "x-apple"
KEEPS = (FORMS, TYPE)
FORMAT, SPEC, VALUE = ("NSStringLocalizedFormatKey", "NSStringFormatSpecTypeKey",
                       "NSStringFormatValueTypeKey")
RULE, SIMPLE, NO_TYPE = "NSStringPluralRuleType", "%#@value@", "none"
VARIABLE = re.compile(r"%(?:\d+\$)?#@([^@]+)@")
HEAD = (
    '<?xml version="1.0" encoding="UTF-8"?>\n<!DOCTYPE plist PUBLIC "-//Apple//DTD PLIST 1.0//EN" '
    '"http://www.apple.com/DTDs/PropertyList-1.0.dtd">\n<plist version="1.0">\n')


def members(element):
    """The members of a dictionary: of each the key, the element of its value, and the line."""
    found, inside = [], element.elements()
    if element.name != "dict" or len(inside) % 2 or element.text().strip():
        raise Misfit("it is not a dictionary")
    for key, value in zip(inside[::2], inside[1::2]):
        if key.name != "key":
            raise Misfit(f"it has the element {key.name} in place of a key")
        found.append((key.text(), value, key.line))
    return found


def dictionary(element):
    """The members of a dictionary by their keys, which are there once."""
    found = members(element)
    names = [key for key, _, _ in found]
    if len(set(names)) != len(names):
        raise Misfit("a key of it is there twice")
    return {key: value for key, value, _ in found}


def text_in(element):
    """The text of a string."""
    if element.name != "string" or element.elements():
        raise Misfit(f"it has the element {element.name} in place of a string")
    return element.text()


def variable_of(element, lang, args):
    """The texts of a variable, and its type."""
    its = {name: text_in(value) for name, value in dictionary(element).items()}
    if its.pop(SPEC, None) != RULE:
        raise Misfit(f"a variable of it has no {SPEC} of {RULE}")
    kind = its.pop(VALUE, NO_TYPE)
    if not set(its) <= set(plurals.ORDER):
        raise Misfit(f"it has the key {quoted(sorted(set(its) - set(plurals.ORDER))[0])}")
    return plurals.texts_of(its, lang, args.plurals), kind


def reachable(text, forms_of):
    """The names of the variables in a text, and in the forms of these."""
    names, texts = [], [text]
    while texts:
        for name in VARIABLE.findall(texts.pop(0)):
            if name not in names:
                names.append(name)
                texts += forms_of(name)
    return names


def read_entry(key, element, line, lang, args, found):
    """Takes one entry, all of it or nothing."""
    try:
        its = dictionary(element)
        if FORMAT not in its:
            raise Misfit(f"it has no {FORMAT}")
        form = text_in(its.pop(FORMAT))
        variables = {name: variable_of(value, lang, args) for name, value in its.items()}
        if set(reachable(form, lambda it: variables.get(it, ((), ""))[0])) != set(variables):
            raise Misfit("the variables in its format are not those that it has")
        if form == SIMPLE and list(variables) == ["value"] and variables["value"][1] == "d":
            labels = [(key, variables["value"][0], "")]
        else:
            labels = [(key, (form,), "")]
            for name, (texts, kind) in variables.items():
                labels.append((f"{key}#{name}", texts, kind))
    except Misfit as why:
        found.misfit(key, why, line)
        return
    for name, texts, kind in labels:
        if not found.label(name, lang, texts, line):
            continue
        if len(texts) == 1 and (kind or form == SIMPLE and len(labels) == 1):
            found.beside(name, FORMS, [PLURAL])
        found.beside(name, TYPE, [kind if kind != "d" else ""])


def read(data, name, args, found):
    """Takes a file in one language."""
    lang = stated_language("", args.lang, name)
    if data.startswith(b"bplist"):
        raise Refused(f"{name}: is a binary property list: plutil -convert xml1 makes it XML")
    root = xml_text.parsed(data, name, doctype=True)
    if root.name != "plist" or len(root.elements()) != 1:
        raise Refused(f"{name}: is not a property list")
    try:
        entries = members(root.elements()[0])
    except Misfit as why:
        raise Refused(f"{name}: {why}") from None
    for key, element, line in entries:
        read_entry(key, element, line, lang, args, found)


def string(indent, key, text):
    """A key with a string."""
    begin = "\n" + "\t" * indent
    return (f"{begin}<key>{xml_text.escaped(key)}</key>"
            f"{begin}<string>{xml_text.escaped(text)}</string>")


def variable(name, texts, kind, args):
    """A variable with its forms."""
    forms = plurals.forms_of(texts, args.lang, args.plurals)
    written = f"\n\t\t<key>{xml_text.escaped(name)}</key>\n\t\t<dict>" + string(3, SPEC, RULE)
    if kind != NO_TYPE:
        written += string(3, VALUE, kind)
    for category in plurals.ORDER:
        if category in forms:
            written += string(3, category, forms[category])
    return written + "\n\t\t</dict>"


def write(out, args):
    """A file in one language."""
    domain = f"{args.domain}/" if args.domain else ""
    used, texts_alone = set(), 0

    def part(key, name):
        """A variable of an entry, which is a message of its own."""
        labels = out.messages.get(f"{domain}{key}#{name}", {})
        if args.lang not in labels:
            raise Misfit(f"its variable {name} has no label in {args.lang}")
        used.add(f"{key}#{name}")
        return variable(name, labels[args.lang], (labels.get(TYPE) or ("d",))[0], args)

    def entry_of(key, labels):
        nonlocal texts_alone
        texts = labels[args.lang]
        if labels.get(FORMS) == (ARRAY,):
            raise Misfit("it is an array, for which this format has no place")
        names = reachable(texts[0], lambda it: out.messages.get(
            f"{domain}{key}#{it}", {}).get(args.lang, ()))
        if len(texts) > 1 or is_plural(labels):
            form, inside = SIMPLE, variable("value", texts, "d", args)
        elif names:
            form, inside = texts[0], "".join(part(key, name) for name in names)
        else:
            texts_alone += 1
            return key, ""
        return key, (f"\n\t<key>{xml_text.escaped(key)}</key>\n\t<dict>" + string(2, FORMAT, form)
                     + inside + "\n\t</dict>")

    entries = list(out.entries(args.lang, entry_of))
    if texts_alone:
        out.left_out["messages without a plural, which a strings file takes"] = texts_alone
    inside = "".join(written for key, written in entries if key not in used)
    return f"{HEAD}<dict>{inside}\n</dict>\n</plist>\n".encode()
