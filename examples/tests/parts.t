#!/usr/bin/env bash
# Runs examples/parts/check: what each command makes of the parts of a catalogue, under GNU
# parallel, is byte for byte the parts of what it makes of the whole. It takes build/lexicat, or the
# command in the folder that LEXICAT_DIR names. Needed: GNU parallel, python3, and flock of
# util-linux.
cd "$(dirname "$0")/../.." || exit 1
. tests/lib/tap.sh
LEXICAT_DIR=$(realpath -m "${LEXICAT_DIR:-build}")
needs "$LEXICAT_DIR/lexicat" parallel python3 flock
PATH=$LEXICAT_DIR:$PATH
check 'a catalogue in parts' examples/parts/check
end
