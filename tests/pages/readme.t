#!/usr/bin/env bash
# Runs each command line that README and the references show, as tests/pages/shown.sh says, and
# compares what is printed with the page. Then the session of examples/session is run, as
# `make try-session` does, with the documents beside it.
#
# usage: tests/pages/readme.t [PAGE..]
cd "$(dirname "$0")/../.." || exit 1
. tests/lib/tap.sh
. tests/pages/shown.sh

if [ $# -gt 0 ]; then
    for page; do check_page "$page"; done
else
    for page in README.md docs/{COMMAND,RECIPES}.md; do check_page "$page"; done
    check 'the session from its documents' tools/try-session "$(command -v lexicat)"
fi
end
