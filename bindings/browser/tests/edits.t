#!/usr/bin/env bash
# Compares what the module for browsers makes of generated edits and exchanges with what the command
# makes of them, in Node and in headless Chromium. engines.sh says what it takes and needs.
#
# BROWSER_SITES says how many pairs of sites are edited (200). The edits are made of SEED.
cd "$(dirname "$0")/../../.." || exit 1
. tests/lib/tap.sh
. bindings/browser/tests/engines.sh
needs "$lexicat"

says_seed
check 'the command edits' told edits.json "$own/edits.py" "$lexicat" "${BROWSER_SITES:-200}"
[ "$failed" -eq 0 ] || end
in_engines edits answers.mjs edit edits.json
end
