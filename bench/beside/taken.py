"""What `lexicat take` does: the cells of a delta come into a site, each where its stamp is later.

usage: taken.py < SITE-AND-DELTA, each on one line
"""
import json
import sys

site, delta = map(json.loads, sys.stdin.buffer)
cells = {(it[0], it[1]): it for it in site["cells"]}
for it in delta["cells"]:
    former = cells.get((it[0], it[1]))
    if former is None or former[2:5] < it[2:5]:
        cells[it[0], it[1]] = it
site["cells"] = sorted(cells.values())
print(json.dumps(site, ensure_ascii=False, separators=(",", ":")))
