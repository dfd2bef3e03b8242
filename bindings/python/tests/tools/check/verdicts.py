"""Prints what the placeholders of labels differ in, by lexicat-check: of each line
[language, sources, texts] of standard input a line, as verdicts.mjs does by the editor's rules."""
import json
import sys

import children

for line in sys.stdin:
    print(children.written(children.verdicts(*json.loads(line))))
