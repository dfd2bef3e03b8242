"""Cuts sent.po at each place, and passes what is left of it to lexicat-po."""
import re
import sys

import children

with open("sent.po", "rb") as file:
    whole = file.read()
texts = [place for text in re.finditer(rb'"(?:[^"\\]|\\.)*"', whole)
         for place in range(text.start() + 1, text.end())]
faults, counted = 0, {3: 0, 7: 0}
for end in range(len(whole.rstrip())):
    with open("cut.po", "wb") as file:
        file.write(whole[:end])
    status, output, errors = children.run(
        "in", "--lang", "de", "--source", "en", "--sent", "sent.po", "site.json", "cut.po")
    wanted = (3,) if end in texts else (3, 7)
    if status not in wanted or not errors or output != (b"" if status == 3 else b"{}\n{}\n"):
        print(f"cut at {end}: {status} {output} {errors}", file=sys.stderr)
        faults += 1
    counted[status] = counted.get(status, 0) + 1
print(f"a file cut at {len(whole.rstrip())} places: {counted[3]} refused, "
      f"of {counted[7]} the lost entries named")
sys.exit(faults > 0 or not texts or not counted[7])
