"""Mutates sent.po and wrapped.po at random, the same ways of each SEED, and passes them to
lexicat-po."""
import os
import random
import sys

import children
from mutating import mutated

chance, faults, counted = random.Random(f"{os.environ['SEED']} mutations"), 0, {}
TOKENS = [b'"', b"\\", b"\n", b"#", b"#~ ", b"#| ", b"#, fuzzy\n", b"msgid ", b"msgctxt ", b"\r",
          b'msgid_plural ""\n', b'msgstr "a"\n', b'msgstr[0] "a"\n', b'msgstr[9] "b"\n', b"n%0",
          b"\x00", b"\xff", b"\xef\xbb\xbf", b"\xe2\x80\xa8", b"charset=utf-16", b"charset=rot13",
          b"nplurals=9", b"Language: pt_BR\\n", b"#: a:b%3A\n", b"#, " + b"x," * 100 + b"\n",
          b"\\x", b"\\777", b"\\v", b'domain "x"\n', b"\xed\xa0\x80", b"(" * 60, b"# \x0b\x85 y\n"]

for _ in range(4000):
    name = chance.choice(["sent.po", "wrapped.po"])
    with open(name, "rb") as file:
        data = mutated(chance, file.read(), TOKENS)
    with open("mutated.po", "wb") as file:
        file.write(data)
    words = chance.choice([
        "in SITE mutated.po", "in --sent NAME SITE mutated.po", "in --sent mutated.po SITE NAME",
        "confirmed SITE mutated.po", "out --like mutated.po SITE", "maps mutated.po NAME"])
    words = words.replace("NAME", name).replace("SITE", "site.json").split()
    status, output, errors = children.run(*words, "--lang", "de", "--source", "en")
    lines = errors.split("\n")[:-1]
    if (status not in (0, 3, 7) or (status == 3) != (output == b"") or status and not lines
            or not all(line.startswith("lexicat-po: ") for line in lines)):
        print(f"{words}: {status} {errors} {data}", file=sys.stderr)
        faults += 1
    counted[status] = counted.get(status, 0) + 1
print("mutated files: " + ", ".join(
    f"{count} with status {status}" for status, count in sorted(counted.items())))
sys.exit(faults > 0 or set(counted) != {0, 3, 7})
