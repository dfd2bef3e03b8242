#!/usr/bin/env bash
# shellcheck disable=SC2154
# Tries what lexicat-check finds in placeholders: it is that of rows by hand, and that of
# the editor's page, verdict for verdict, over these rows and over labels of random pieces. It takes
# and needs what bindings/python/tests/tools/check/site.sh says, and for the editor's rules Node.
cd "$(dirname "$0")/../../../../.." || exit 1
. bindings/python/tests/tools/check/site.sh
by_hand=$room/by-hand
random=$room/random

rows() {
    /usr/bin/python3 "$own/rows.py" by-hand "$by_hand" wanted
    verdicts_of "$by_hand"
    cmp -s "$by_hand.verdicts" wanted || fault "wanted other verdicts:" \
        "$(paste "$by_hand" wanted "$by_hand.verdicts" | awk -F '\t' '$2 != $3')"
    says "$(wc -l < "$by_hand") labels"
}

generated() {
    /usr/bin/python3 "$own/rows.py" generated "$random"
    verdicts_of "$random"
    says "$(wc -l < "$random") labels, $(grep -c '\["' "$random.verdicts") with a finding"
}

says_seed
try 'labels by hand' rows
by_editor 'labels by hand, by the editor' "$by_hand"
try 'generated labels' generated
by_editor 'generated labels, by the editor' "$random"
end
