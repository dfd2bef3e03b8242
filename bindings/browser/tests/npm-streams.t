#!/usr/bin/env bash
# Runs the command of the package for npm and the native one over the same streams, which fail, wait
# or are large, and compares what both leave. npm.sh says what it takes and needs.
cd "$(dirname "$0")/../../.." || exit 1
. tests/lib/tap.sh
. bindings/browser/tests/npm.sh
needs "$lexicat"

is_installed
check 'streams of the command' python3 "$own/streams.py" "$lexicat" \
    "$app/node_modules/.bin/lexicat"
end
