"""Language negotiation, written from the text of the RFCs alone: tags by RFC 5646 section 2.1,
ranges, filtering and lookup by RFC 4647, Accept-Language fields by RFC 9110 section 12.5.4.

It is the second program that answers every vector, and shares no code with the library. It needs
Python alone. It is written to be read beside the RFCs, and not to be fast.

    answer(subject, vector)      the answer, by the choices that the library makes
    admitted(subject, vector)    every answer that the RFCs admit, the one above first, and the
                                 names of the choices on which it depends (choices.json has them)
"""
import itertools
import re

# ---- RFC 5646 section 2.1: tags

IRREGULAR = set(
    "en-gb-oed i-ami i-bnn i-default i-enochian i-hak i-klingon i-lux i-mingo i-navajo i-pwn i-tao"
    " i-tay i-tsu sgn-be-fr sgn-be-nl sgn-ch-de".split())
REGULAR = set(
    "art-lojban cel-gaulish no-bok no-nyn zh-guoyu zh-hakka zh-min zh-min-nan zh-xiang".split())
LANGTAG = re.compile(
    r"(?P<language>[a-z]{2,3}(?P<extlangs>(?:-[a-z]{3}){1,3})?|[a-z]{4}|[a-z]{5,8})"
    r"(?:-(?P<script>[a-z]{4}))?"
    r"(?:-(?P<region>[a-z]{2}|[0-9]{3}))?"
    r"(?P<variants>(?:-(?:[a-z0-9]{5,8}|[0-9][a-z0-9]{3}))*)"
    r"(?P<extensions>(?:-[0-9a-wyz](?:-[a-z0-9]{2,8})+)*)"
    r"(?:-x(?P<private>(?:-[a-z0-9]{1,8})+))?")
PRIVATEUSE = re.compile(r"x(?P<private>(?:-[a-z0-9]{1,8})+)")
EXTENSION = re.compile(r"-([0-9a-wyz])((?:-[a-z0-9]{2,8})+)")
# Section 4.4.1: a limit is at least this. The library's limit, of tags and of ranges.
LEAST_LIMIT, LIMIT = 35, 255


def lower(text):
    """Letters in lower case; those of ASCII alone, as ABNF has no others (section 2.1.1)."""
    return "".join(chr(ord(it) + 32) if "A" <= it <= "Z" else it for it in text)


def pieces(text):
    """The subtags of a text that begins with a hyphen, or of none."""
    return text.split("-")[1:] if text else []


def parts_of(tag):
    """The parts of a tag by the grammar, or None where it is not well-formed."""
    tag = lower(tag)
    if tag in IRREGULAR:
        return {"grandfathered": tag}
    found = PRIVATEUSE.fullmatch(tag)
    if found:
        return {"private": pieces(found["private"])}
    found = LANGTAG.fullmatch(tag)
    if not found:
        return None
    parts = {
        "language": found["language"].split("-")[0],
        "extlangs": pieces(found["extlangs"]),
        "script": found["script"],
        "region": found["region"],
        "variants": pieces(found["variants"]),
        "extensions": [[one[1], *pieces(one[2])]
                       for one in EXTENSION.finditer(found["extensions"])],
        "private": pieces(found["private"]),
    }
    return {name: value for name, value in parts.items() if value}


def repeats(parts):
    """Whether a variant or a singleton is there twice (sections 2.2.5 and 2.2.6)."""
    variants = parts.get("variants", [])
    singletons = [one[0] for one in parts.get("extensions", [])]
    return any(len(set(many)) < len(many) for many in (variants, singletons))


def tag_answers(tag):
    """Every admitted answer for a tag, and the choices."""
    parts = parts_of(tag)
    if parts is None:
        return [None], []
    answers, choices = [parts], []
    if lower(tag) in REGULAR:
        # (section 2.2.8: they match `langtag`, and yet their subtags are no extlangs or variants)
        answers.append({"grandfathered": lower(tag)})
        choices.append("grandfathered")
    if repeats(parts):
        answers.append(None)
        choices.append("repeated")
    if len(tag) > LEAST_LIMIT:
        answers.append(None)
        choices.append("length")
    if len(tag) > LIMIT:
        answers.sort(key=lambda it: it is not None)
    return unique(answers), choices


# ---- RFC 4647 section 2: ranges

BASIC_RANGE = re.compile(r"[A-Za-z]{1,8}(?:-[A-Za-z0-9]{1,8})*|\*")
EXTENDED_RANGE = re.compile(r"(?:[A-Za-z]{1,8}|\*)(?:-(?:[A-Za-z0-9]{1,8}|\*))*")


def range_answers(grammar, text):
    if not grammar.fullmatch(text):
        return [False], []
    if len(text) <= LEAST_LIMIT:
        return [True], []
    return ([True, False] if len(text) <= LIMIT else [False, True]), ["length"]


# ---- RFC 9110 sections 5.6.1, 12.4.2 and 12.5.4: fields

ELEMENT = re.compile(
    rf"(?P<range>{BASIC_RANGE.pattern})"
    r"(?:[ \t]*;[ \t]*[Qq]=(?P<qvalue>0(?:\.[0-9]{0,3})?|1(?:\.0{0,3})?))?")
# How many empty elements are a reasonable number, which section 5.6.1.2 leaves open.
REASONABLE = 10


def thousandths(qvalue):
    whole, _, digits = qvalue.partition(".")
    return int(whole) * 1000 + int(digits.ljust(3, "0"))


def read_field(field, limit=LIMIT):
    """The items of a field, each a range of at most a limit and a weight; and the places, in bytes,
    of the elements that are none."""
    items, places, place = [], [], 0
    for piece in field.split(","):
        element = piece.strip(" \t")
        found = ELEMENT.fullmatch(element)
        if found and len(found["range"]) <= limit:
            items.append([lower(found["range"]), thousandths(found["qvalue"] or "1")])
        elif element:
            places.append(place + piece.index(element[0]))
        place += len(piece.encode("utf-8", "surrogatepass")) + 1
    return items, places


def field_answers(field):
    items, places = read_field(field)
    longer, still = read_field(field, len(field))
    if places and not still:
        return [{"malformed": places[0]}, longer], ["length"]
    if places:
        # (section 2.4: a recipient may recover what is usable, and need not)
        return unique([{"malformed": places[0]}, items, []]), ["recovery"]
    answers, choices = [items], []
    if field != field.strip(" \t"):
        # (section 5.5: blanks at the ends are no part of a field's value)
        answers.append({"malformed": 0})
        choices.append("outer-blanks")
    if sum(not it.strip(" \t") for it in field.split(",")) > REASONABLE:
        answers.append({"refused": True})
        choices.append("empty-elements")
    if any(len(it[0]) > LEAST_LIMIT for it in items):
        answers.append({"refused": True})
        choices.append("length")
    return unique(answers), choices


# ---- RFC 4647 section 3.3: filtering

def basic_match(one, tag):
    """Section 3.3.1: the range equals the tag, or a prefix of it that a hyphen follows."""
    one, tag = lower(one), lower(tag)
    return one == "*" or tag == one or tag.startswith(one + "-")


def extended_match(one, tag):
    """Section 3.3.2, step by step."""
    wanted, given = lower(one).split("-"), lower(tag).split("-")  # step 1
    if wanted[0] not in ("*", given[0]):  # step 2
        return False
    at, to = 1, 1
    while at < len(wanted):  # step 3
        if wanted[at] == "*":  # A
            at += 1
        elif to == len(given):  # B
            return False
        elif wanted[at] == given[to]:  # C
            at, to = at + 1, to + 1
        elif len(given[to]) == 1:  # D
            return False
        else:  # E
            to += 1
    return True  # step 4


def filtered(items, tags, match, zero):
    """The set of tags that a list of ranges and weights asks for. `zero` says what a weight of 0
    excludes."""
    found = []
    for tag in tags:
        matching = [it for it in items if match(it[0], tag)]
        if accepts(matching, tag, zero):
            found.append(tag)
    return sorted(set(found), key=lambda it: (lower(it), it))


def accepts(matching, tag, zero):
    """Whether items that match a tag accept it."""
    if not matching:
        return False
    if zero == "specific":  # the longest range decides, and the first of those
        return max(matching, key=lambda it: specificity(it[0]))[1] > 0
    if zero == "any":  # each range of weight 0 excludes what it matches
        return all(it[1] > 0 for it in matching)
    if zero == "named":  # the same, but "*" speaks of what no other range matches
        named = [it for it in matching if it[0] != "*"]
        return all(it[1] > 0 for it in named or matching)
    if zero == "exact":  # it excludes the very tag
        exact = [it for it in matching if it[0] == lower(tag)]
        return any(it[1] > 0 for it in exact or matching)
    return any(it[1] > 0 for it in matching)  # "none": each other range includes what it matches


def specificity(one):
    return sum(it != "*" for it in one.split("-"))


ZEROS = ("specific", "any", "named", "exact", "none")


def filter_answers(vector, match):
    tags = vector["tags"]
    if "ranges" in vector:
        items = [[lower(it), 1000] for it in vector["ranges"]]
        return [filtered(items, tags, match, "specific")], []
    items, _ = read_field(vector["field"])

    def ask(once, zero):
        return filtered(once(items), tags, match, zero)
    return answers_of(ask, {"repeated-range": onces(items), "zero-weight": zeros(items)})


# ---- RFC 4647 section 3.4: lookup

def truncations(one):
    """A range and what is left of it as it is truncated from the end."""
    subtags = lower(one).split("-")
    while subtags:
        yield "-".join(subtags)
        subtags.pop()
        while subtags and len(subtags[-1]) == 1 and subtags[-1] != "*":
            subtags.pop()


def as_basic(one):
    """Section 3.2: an extended range as a basic one."""
    subtags = lower(one).split("-")
    return "*" if subtags[0] == "*" else "-".join(it for it in subtags if it != "*")


def looked_up(items, order, tags, default, zero="specific", star="default", bars=True, held=True):
    """The tag that lookup finds by items, which it tries in an order, else the default, else None.
    `zero` says what a weight of 0 excludes, `star` the same of "*", `bars` whether a default may be
    excluded, and `held` whether it has to be available."""
    available = {lower(tag): tag for tag in reversed(tags)}
    counted = [it for it in items if it[0] != "*" or star == "all"]
    for one, weight in order:
        if weight == 0 or one == "*":
            continue  # ("*" is skipped, and what follows last is the default)
        for text in truncations(one):
            if text in available and not is_excluded(items, counted, text, zero, star):
                return available[text]
    if default is None or held and lower(default) not in available:
        return None
    if bars and is_barred(items, default, zero, star):
        return None
    return default


def is_excluded(items, counted, text, zero, star):
    """Whether a weight of 0 keeps lookup from a text."""
    matching = [it for it in counted if basic_match(it[0], text)]
    if zero == "truncated":  # it excludes what its range would find
        if any(text in truncations(one) for one, weight in counted if weight == 0):
            return True
    elif zero == "exact":
        weights = [weight for one, weight in counted if one == text]
        if weights and not any(weights):
            return True
    elif matching and zero != "none" and not accepts(matching, text, zero):
        return True
    return star == "unmatched" and not matching and ["*", 0] in items


def is_barred(items, default, zero, star):
    """Whether a weight of 0 keeps a default away."""
    if star == "all" and ["*", 0] in items:
        return True
    matching = [it for it in items if basic_match(it[0], default)
                and (star != "never" or it[0] != "*")]
    return bool(matching) and not accepts(matching, default, zero)


def all_items(items):
    return items


def first_items(items):
    """Of items with the same range the first."""
    return list({it[0]: it for it in reversed(items)}.values())[::-1]


def last_items(items):
    """Of items with the same range the last."""
    return list({it[0]: it for it in items}.values())


def onces(items):
    """How items with the same range may count."""
    is_repeated = len(last_items(items)) < len(items)
    return (all_items, first_items, last_items) if is_repeated else (all_items,)


def zeros(items, more=()):
    """What weights of 0 may exclude."""
    return ZEROS + more if any(it[1] == 0 for it in items) else ZEROS[:1]


def orders(items):
    """The orders of items by weight: of those with equal weight as written, then any other."""
    groups = [list(group) for _, group in itertools.groupby(
        sorted(items, key=lambda it: -it[1]), key=lambda it: it[1])]
    for order in itertools.product(*map(itertools.permutations, groups)):
        yield [it for group in order for it in group]


def lookup_answers(vector):
    tags, default = vector["tags"], vector.get("default")
    held = (True,) if default is None else (True, False)
    if "ranges" in vector:
        # (section 2.3: a simple list is in descending order of priority)
        items = [[lower(it), 1000] for it in vector["ranges"]]
        return answers_of(lambda it: looked_up(items, items, tags, default, held=it),
                          {"default": held})
    items, _ = read_field(vector["field"])

    def ask(once, number, zero, star, bars, is_held):
        order = next(itertools.islice(orders(once(items)), number, None), None)
        if order is None:
            return SAME
        return looked_up(once(items), order, tags, default, zero, star, bars, is_held)
    stars = ("default", "unmatched", "all", "never") if ["*", 0] in items else ("default",)
    return answers_of(ask, {
        "repeated-range": onces(items),
        # (section 12.5.4: the order of equal weights cannot be relied upon)
        "equal-weights": range(sum(1 for _ in orders(items))),
        "zero-weight": zeros(items, ("truncated",)), "zero-star": stars,
        "default-excluded": (True, False) if len(zeros(items)) > 1 else (True,), "default": held})


def extended_lookup_answers(vector):
    answers = unique(found_by(vector["ranges"], vector["tags"], vector.get("default")))
    return answers, ["extended-lookup"] if len(answers) > 1 else []


def found_by(ranges, tags, default):
    """Section 3.4: what a lookup by an extended range returns is the implementation's to define.
    It is what the basic range finds (3.2), or any of the tags that the extended range matches,
    truncated until it matches some."""
    if not ranges:
        return [looked_up([], [], tags, default)]
    items = [[as_basic(ranges[0]), 1000]]
    first = looked_up(items, items, tags, None)
    later = found_by(ranges[1:], tags, default)
    answers = later if first is None else [first]
    if "*" not in ranges[0] or ranges[0] == "*":
        return answers
    matched = (matched_in_lookup(it, tags) for it in truncations(ranges[0]))
    return answers + next(filter(None, matched), later)


def matched_in_lookup(one, tags):
    if "*" not in one:
        return [tag for tag in tags if lower(tag) == one]
    return [tag for tag in tags if one != "*" and extended_match(one, tag)]


# ---- answers, and the choices on which they depend

SAME = object()


def unique(many):
    return [it for at, it in enumerate(many) if it not in many[:at]]


def answers_of(ask, settings):
    """Every answer over all settings, of which the first of each is the library's; and the names of
    the settings without which an answer would not be there."""
    names = list(settings)

    def over(choices):
        found = [ask(*it) for it in itertools.product(*choices.values())]
        return unique([it for it in found if it is not SAME])
    answers = over(settings)
    if len(answers) == 1:
        return answers, []
    usual = {name: list(settings[name])[:1] for name in names}
    return answers, [name for name in names
                     if len(over({**usual, name: settings[name]})) > 1
                     or len(over({**settings, name: usual[name]})) < len(answers)]


SUBJECTS = {
    "tags": lambda it: tag_answers(it["tag"]),
    "basic-ranges": lambda it: range_answers(BASIC_RANGE, it["range"]),
    "extended-ranges": lambda it: range_answers(EXTENDED_RANGE, it["range"]),
    "fields": lambda it: field_answers(it["field"]),
    "basic-filtering": lambda it: filter_answers(it, basic_match),
    "extended-filtering": lambda it: filter_answers(it, extended_match),
    "lookup": lookup_answers,
    "extended-lookup": extended_lookup_answers,
}


def admitted(subject, vector):
    return SUBJECTS[subject](vector)


def answer(subject, vector):
    return admitted(subject, vector)[0][0]
