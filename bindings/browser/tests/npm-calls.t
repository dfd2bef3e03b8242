#!/usr/bin/env bash
# Tries the call of the whole command that the package for npm has: what is of JavaScript in it, and
# that it answers command lines as the command does, byte for byte. npm.sh says what it takes and
# needs.
#
# NPM_COMMANDS says how many command lines the call is asked (5000). They are made of SEED.
cd "$(dirname "$0")/../../.." || exit 1
. tests/lib/tap.sh
. bindings/browser/tests/npm.sh
needs "$lexicat"

says_seed
is_installed
for node in "${nodes[@]}"; do
    check "the call of the command in Node $("$node" --version)" "$node" "$app/called.mjs"
    check "command lines in Node $("$node" --version)" python3 tests/library/commands.py \
        "$lexicat" "${NPM_COMMANDS:-5000}" "$node" "$app/commands.mjs"
done
end
