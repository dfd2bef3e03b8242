"""What the documents of sites are after edits and exchanges, reckoned from the rules of the formats
alone. Cells are a dict: of each key a stamp, as (time, site, count), and a label.
"""
import json


def text(value):
    return json.dumps(value, ensure_ascii=False, sort_keys=True, separators=(",", ":"))


def document(cells, **members):
    rows = [[*key, *cells[key][0], cells[key][1]] for key in sorted(cells)]
    return text({"cells": rows, **members, "version": 2}) + "\n"


def digest(label):
    """FNV-1a of 64 bits over the label as a row has it."""
    found = 14695981039346656037
    for byte in text(label).encode():
        found = (found ^ byte) * 1099511628211 % 2**64
    return f"{found:016x}"


def summary(cells, owner, shows_labels):
    keys = sorted(cells)
    labels = {"labels": [digest(cells[key][1]) for key in keys]} if shows_labels else {}
    stamps = [[*key, *cells[key][0]] for key in keys]
    return text({"kind": "summary", "owner": owner, "stamps": stamps, "version": 2, **labels}) + "\n"


def clash(cells, rows):
    """What is said of the first key whose stamp has two labels, or None."""
    for place, key in enumerate(sorted(cells)):
        if key in rows and cells[key][0] == rows[key][0] and cells[key][1] != rows[key][1]:
            stamp = " ".join(map(str, cells[key][0]))
            return f"refused 13: stamp {stamp} used twice, cell {place}\n"
    return None


def joined(cells, rows):
    both = dict(cells)
    for key, cell in rows.items():
        if key not in both or both[key][0] < cell[0]:
            both[key] = cell
    return both


def lacked(cells, known):
    """The cells whose key is not known, or with an older stamp."""
    return {key: cell for key, cell in cells.items() if key not in known or known[key][0] < cell[0]}
