#!/usr/bin/env bash
# Runs the story of examples/git, in which two sites end with equal cells, and a stale lock of git
# stops an exchange; and compares what it prints with what is expected. It takes build/lexicat, or
# the command in the folder that LEXICAT_DIR names. Needed: git, jq, and flock of util-linux.
cd "$(dirname "$0")/../.." || exit 1
. tests/lib/tap.sh
LEXICAT_DIR=$(realpath -m "${LEXICAT_DIR:-build}")
needs "$LEXICAT_DIR/lexicat" git jq flock
PATH=$LEXICAT_DIR:$PWD/build:$PATH
# (the time two days ahead is another one each day)
story() {
    examples/git/story 2>&1 | sed -E 's/its time, [0-9-]+ [0-9:]+,/its time, 2026-12-02 10:00,/' |
        diff -u examples/git/expected -
}
check 'prints the story of two sites whose carrier is git' story
end
