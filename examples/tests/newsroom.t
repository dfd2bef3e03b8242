#!/usr/bin/env bash
# Runs the story of examples/newsroom, and compares what it prints with what is expected. It takes
# build/lexicat, or the command in the folder that LEXICAT_DIR names.
cd "$(dirname "$0")/../.." || exit 1
. tests/lib/tap.sh
LEXICAT_DIR=$(realpath -m "${LEXICAT_DIR:-build}")
needs "$LEXICAT_DIR/lexicat"
PATH=$LEXICAT_DIR:$PATH
story() { examples/newsroom/story 2>&1 | diff -u examples/newsroom/expected -; }
check 'prints the story of three newsrooms' story
end
