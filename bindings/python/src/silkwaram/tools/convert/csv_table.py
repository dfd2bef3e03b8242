"""Tables of CSV (RFC 4180): a column id, a column for each language, and if a label has several
texts a column form that counts them from 1, a row each. A text that a spreadsheet would take for a
formula has an apostrophe before it, which is taken away when the table comes back."""
import csv
import io
import itertools
import re

from .common import TAG, Misfit, Refused, decoded

# (OWASP's list, and the same characters in full width)
FORMULA = re.compile("'*[=+\\-@\t\r\n\uff1d\uff0b\uff0d\uff20]")
KEEPS = ()
ID, FORM = "id", "form"


def guarded(text):
    """A text as a cell that is no formula."""
    return "'" + text if FORMULA.match(text) else text


def unguarded(cell):
    """The text of a cell."""
    return cell[1:] if cell.startswith("'") and FORMULA.match(cell) else cell


def rows_of(text, name):
    """The rows of a table with their lines. It is cut by what follows the first cell, id."""
    found = re.match(r'(?:id|"id")([,;\t])', text)
    if not found:
        raise Refused(f"{name}: its first line does not begin with the columns id and a language")
    reader = csv.reader(io.StringIO(text, newline=""), delimiter=found[1], strict=True)
    while True:
        line = reader.line_num + 1
        try:
            row = next(reader, None)
        except csv.Error as fault:
            raise Refused(f"{name}: line {line} is not a whole row: {fault}") from None
        if row is None:
            return
        if row:
            yield line, row


def languages_of(header, name):
    """The languages of the columns. (After the first one `id` is Indonesian.)"""
    langs = [word.lower() for word in header[1:] if word != FORM]
    for word in langs:
        if not TAG.fullmatch(word):
            raise Refused(f"{name}: a column is named {word!r}, which is not a language tag")
    if len(set(langs)) != len(langs) or header.count(FORM) > 1 or not langs:
        raise Refused(f"{name}: two columns have one name, or there is no language")
    return langs


def texts_of(rows, column):
    """The texts in a column of the rows of a message; none if all cells are empty."""
    cells = [unguarded(row[column]) for _, row in rows]
    texts = list(itertools.takewhile(bool, cells))
    if any(cells[len(texts):]):
        raise Misfit("has an empty cell before another one in a column")
    return texts


def read(data, name, args, found):
    """Takes a table, or of it the languages --lang and --source."""
    rows = rows_of(decoded(data, name), name)
    _, header = next(rows, (1, []))
    header = [header[0]] + [word if word == FORM else word.lower() for word in header[1:]]
    langs = languages_of(header, name)
    wanted = {it for it in (args.lang, args.source) if it} or set(langs)
    if not wanted <= set(langs):
        raise Refused(f"{name}: has no column {' or '.join(sorted(wanted - set(langs)))}")
    form = header.index(FORM) if FORM in header else None
    messages = {}
    for line, row in rows:
        if len(row) != len(header):
            raise Refused(f"{name}: line {line} has {len(row)} cells, and the first {len(header)}")
        messages.setdefault(unguarded(row[0]), []).append((line, row))
    for key, its_rows in messages.items():
        line = its_rows[0][0]
        places = [row[form] if form is not None else "" for _, row in its_rows]
        if len(its_rows) > 1 and places != [str(place + 1) for place in range(len(places))]:
            words = "has several rows, which the column form does not number from 1"
            found.misfit(key, words, line)
            continue
        for lang in langs:
            try:
                texts = texts_of(its_rows, header.index(lang, 1))
            except Misfit as why:
                found.misfit(key, why, line)
                continue
            if texts and (lang in wanted or lang.startswith("x-") and not args.lang):
                found.label(key, lang, texts, line)


def write(out, args):
    """A table of all languages, or of --lang, --source and notes."""
    langs = sorted({lang for labels in out.messages.values() for lang in labels})
    if args.lang:
        langs = [it for it in langs if it in (args.lang, args.source, "x-note")]
    written = io.StringIO(newline="")
    several = any(len(labels.get(lang, ())) > 1 for labels in out.messages.values()
                  for lang in langs)
    writer = csv.writer(written, lineterminator="\r\n")
    writer.writerow([ID] + [FORM] * several + langs)

    def entry_of(key, labels):
        texts = [labels.get(lang, ()) for lang in langs]
        for lang, its in zip(langs, texts):
            if "" in its:
                raise Misfit(f"its label in {lang} has an empty text, "
                             "but an empty cell means no label")
            if any("\0" in text for text in its):
                raise Misfit(f"a text of it in {lang} has the character U+0000")
        count = max(map(len, texts))
        for place in range(count):
            form = [str(place + 1) if count > 1 else ""] * several
            cells = [its[place] if place < len(its) else "" for its in texts]
            writer.writerow([guarded(it) for it in [key] + form + cells])

    out.keeps = tuple(langs)
    for _ in out.entries(langs, entry_of):
        pass
    return written.getvalue().encode()
