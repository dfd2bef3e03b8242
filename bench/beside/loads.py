"""The sites that are measured: messages in ten languages, one cell in each.

A row of a document has 49 bytes and its label. Changes are of one message in a hundred, in all
languages, by another site and at a later time.
"""
LANGUAGES = "de en es fr it ja nl pt ru zh".split()
TIME, LATER = 1700000000000, 1800000000000
EACH = 100


def cells(count, width, site="paris", time=TIME, step=1):
    """The fields of so many cells: id, language, time, site, count and a label of so many bytes.
    With a step they are those of some messages alone."""
    word = "Text" if time == TIME else "Next"
    for message in range(step // 2, count // len(LANGUAGES), step):
        for language in LANGUAGES:
            label = f"{word} {message:05} in {language}".ljust(width, ".")
            yield f"page/{message:05}", language, time, site, 0, label


def rows(found):
    """The rows of cells as a document has them."""
    return ",".join(f'["{id}","{language}",{time},"{site}",{count},["{label}"]]'
                    for id, language, time, site, count, label in found)


def site(count, width):
    """The document of a site, as the command writes it."""
    return f'{{"cells":[{rows(cells(count, width))}],"kind":"site","site":"paris","version":2}}\n'


def delta(count, width):
    """The delta of the changes of another site."""
    changes = rows(cells(count, width, "tokyo", LATER, EACH))
    return f'{{"cells":[{changes}],"kind":"delta","to":"paris","version":2}}\n'


def catalogue(count, is_template=False):
    """A PO file of as many messages in one language, or a template of which one message in a
    hundred is new."""
    yield 'msgid ""\nmsgstr "Content-Type: text/plain; charset=UTF-8\\n"\n'
    for message in range(count):
        word = "Next" if is_template and message % EACH == EACH // 2 else "Text"
        text = "" if is_template else f"Text {message:07} in de"
        yield f'\nmsgid "{word} {message:07} in en"\nmsgstr "{text}"\n'
