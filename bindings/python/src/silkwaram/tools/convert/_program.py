"""The program lexicat-convert: its name and its help."""
from .._shared import Program

HELP = """\
Usage: lexicat-convert FORMAT in [--lang LANG] [FILE..] > MAPS
       lexicat-convert FORMAT out --lang LANG [MAPS] > FILE

  in     prints language maps of files, as lexicat import reads them
  out    prints a file of language maps, as lexicat export prints them

Formats: i18next, json (names as they are, and no plurals), arb, android
(strings.xml), strings, stringsdict and xcstrings (iOS), properties (Java), csv,
xliff (1.2), xliff2 (2.0) and fluent. For PO files use lexicat-po.

Messages that cannot be used are listed on standard error with their ids; all
else is done, and the status is 7.

  --lang LANG        the language of the file; for xliff that of the
                     translations. Not needed if the file states it. Without it
                     csv and xcstrings out have all languages
  --source LANG      for xliff, csv and xcstrings: the language that is translated
  --domain NAME      what the ids begin with in the maps, before a slash
  --plurals WORDS    the plural categories of the language: 'one few other'
  --flat             for i18next: take keys as they are, with their dots
  -h, --help         print this
  --version          print the version
"""
PROGRAM = Program("lexicat-convert", HELP)
