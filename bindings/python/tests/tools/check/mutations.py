"""Passes 1,500 mutated copies of site.json to lexicat-check: each is refused or checked. They are
the same ones of each SEED."""
import os
import random
import sys

import children
from mutating import mutated

TOKENS = [b'"', b"\\", b"{", b"}", b"[", b"]", b",", b"null", b"1e400", b"\\ud800", b"\xff", b"\0",
          b'"x-note"', b'"max 1"', b"%", b"{name}", b"<", b"0" * 30, b"\xef\xbb\xbf", b"[" * 300]
chance, counted, faults = random.Random(f"{os.environ['SEED']} mutations"), {}, 0
with open("site.json", "rb") as file:
    whole = file.read()
for turn in range(1500):
    data = mutated(chance, whole, TOKENS)
    with open("mutated.json", "wb") as file:
        file.write(data)
    status, output, errors = children.run("--source", "en", "mutated.json")
    counted[status] = counted.get(status, 0) + 1
    if (status not in (0, 1, 3) or (status == 1) != bool(output) or (status == 3) != bool(errors)
            or status == 3 and not errors.startswith("refused ")):
        print(f"{status} {errors} {data}", file=sys.stderr)
        faults += 1
print("mutated documents: " + ", ".join(
    f"{count} with status {status}" for status, count in sorted(counted.items())))
sys.exit(faults > 0 or not {1, 3} <= set(counted))
