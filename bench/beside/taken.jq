# What `lexicat take` does: the cells of a delta come into a site, each where its stamp is later.
#
# usage: jq -cn -f taken.jq SITE-AND-DELTA
def key: .[0] + "\n" + .[1];
input as $site | input as $delta
| reduce $delta.cells[] as $cell (
    (reduce $site.cells[] as $cell ({}; .[$cell | key] = $cell));
    ($cell | key) as $key | if .[$key][2:5] < $cell[2:5] then .[$key] = $cell else . end)
| [.[]] | sort as $cells
| $site | .cells = $cells
