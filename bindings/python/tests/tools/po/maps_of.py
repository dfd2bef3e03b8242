"""Prints a catalogue as language maps, each message under the digest of its context and text, and
writes the plural rule of its header to the file rule.

usage: maps_of.py FILE.mo LANGUAGE
"""
import gettext
import hashlib
import json
import sys

with open(sys.argv[1], "rb") as file:
    data = file.read()
sizes = [int.from_bytes(data[at:at + 4], "little") for at in range(0, 20, 4)]
assert sizes[0] == 0x950412DE, "another byte order"


def text(table, row):
    at = sizes[table] + 8 * row
    size, start = (int.from_bytes(data[at + more:at + more + 4], "little") for more in (0, 4))
    return data[start:start + size].decode("utf-8").split("\0")


maps, rule = {}, ""
for row in range(sizes[2]):
    source, texts = text(3, row), text(4, row)
    if source == [""]:
        lines = texts[0].split("\n")
        rule = "".join(line[14:] for line in lines if line.startswith("Plural-Forms: "))
        # (as gettext does, which reads no further)
        rule = ";".join(rule.split(";")[:2]) + ";" if rule else ""
        continue
    source[0] = source[0].rpartition("\x04")[2]
    key = hashlib.sha256("\0".join(text(3, row)).encode()).hexdigest()
    if all(texts):
        maps[key] = {"en": source, sys.argv[2]: texts}
with open("rule", "w") as file:
    file.write(rule)
print(json.dumps(maps, ensure_ascii=False))
