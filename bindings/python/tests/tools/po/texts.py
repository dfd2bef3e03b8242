"""Prints the entries of a catalogue, a line of JSON each: context, msgid, number of the form or
null, text.

usage: texts.py FILE.mo
"""
import gettext
import json
import sys

with open(sys.argv[1], "rb") as file:
    catalog = gettext.GNUTranslations(file)._catalog
for key, text in catalog.items():
    msgid, form = key if isinstance(key, tuple) else (key, None)
    context, _, msgid = msgid.rpartition("\x04")
    if msgid:
        print(json.dumps([context, msgid, form, text], ensure_ascii=False))
