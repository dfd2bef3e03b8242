#!/usr/bin/env bash
# Compares what the module of the whole command answers with what the command itself leaves, in Node
# and in headless Chromium. engines.sh says what it takes and needs.
#
# BROWSER_COMMANDS says how many command lines are asked (500). They are made of SEED.
cd "$(dirname "$0")/../../.." || exit 1
. tests/lib/tap.sh
. bindings/browser/tests/engines.sh
needs "$lexicat"

says_seed
check 'the command is run' told commands.json tests/library/commands.py --json "$lexicat" \
    "${BROWSER_COMMANDS:-500}"
[ "$failed" -eq 0 ] || end
in_engines 'command lines' commands.mjs compare commands.json
end
