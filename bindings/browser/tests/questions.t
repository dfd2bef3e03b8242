#!/usr/bin/env bash
# Compares the answers of the module for browsers with the command's to the same generated
# questions, in Node and in headless Chromium. engines.sh says what it takes and needs.
#
# BROWSER_QUESTIONS says how many questions each call is asked (1000). They are made of SEED.
cd "$(dirname "$0")/../../.." || exit 1
. tests/lib/tap.sh
. bindings/browser/tests/engines.sh
needs "$lexicat"

says_seed
check 'the command is asked' told questions.json "$own/questions.py" "$lexicat" \
    "${BROWSER_QUESTIONS:-1000}"
[ "$failed" -eq 0 ] || end
in_engines questions answers.mjs compare questions.json
end
