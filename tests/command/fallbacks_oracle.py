"""What `pick` answers by a table of fallbacks, by the rules of docs/COMMAND.md. Texts are in lower
case, a table is a dict, and the items of a field are pairs of a range and a weight."""


def truncated(text):
    """RFC 4647 section 3.4: a subtag less; a single character goes with the subtag after it."""
    subtags = text.split("-")[:-1]
    while subtags and len(subtags[-1]) == 1:
        subtags.pop()
    return "-".join(subtags)


def chain(table, text):
    """What lookup tries for a text: each element is used once."""
    unused, tried = dict(table), []
    while text:
        tried += [text] if text not in tried else []
        text = unused.pop(text, None) or truncated(text)
    return tried


def matches(named, tag):
    """Basic filtering, RFC 4647 section 3.3.1; no range matches `@none`."""
    return tag != "@none" and (named == "*" or f"{tag}-".startswith(f"{named}-"))


def refuses(items, tag):
    """Whether the range with the most subtags that matches, the first of these, has weight 0."""
    fits = [it for it in items if matches(it[0], tag)]
    return bool(fits) and max(fits, key=lambda it: it[0].count("-") + (it[0] != "*"))[1] == 0


def pick(table, items, tags, default=None, widen=False):
    """The line of `pick`: ranges are tried by weight, then as written; "*" is passed over."""
    others = [it for it in items if it[0] != "*"]
    for named, _ in sorted((it for it in others if it[1]), key=lambda it: -it[1]):
        for text in chain(table, named) + sorted(it for it in tags if widen and matches(named, it)):
            if text in tags and not refuses(others, text):
                return f"matched {text}"
    return f"default {default}" if default in tags and not refuses(items, default) else "nothing"
