#!/usr/bin/env bash
# Compares what the package for npm answers in Node with what the command does: questions, edits
# and hostile inputs, by its own calls and by those of `load`; and what is of JavaScript alone.
# npm.sh says what it takes and needs.
cd "$(dirname "$0")/../../.." || exit 1
. tests/lib/tap.sh
. bindings/browser/tests/npm.sh
needs "$lexicat"

tried_by() { # a name, a program of Node, and a package or file of it
    local name=$1 node=$2 it=$3
    in_app() { (cd "$app" && "$node" ask.mjs "$it" "$@"); }
    check "questions in $name" in_app answers.mjs compare questions.json
    check "edits in $name" in_app answers.mjs edit edits.json
    check "hostile inputs in $name" in_app hostile.mjs hostile hostile.json
    check "what is of JavaScript in $name" in_app hostile.mjs ofJavaScript
}

is_installed
is_asked
is_edited
[ "$failed" -eq 0 ] || end
for node in "${nodes[@]}"; do
    tried_by "Node $("$node" --version)" "$node" silkwaram
done
tried_by 'load()' node ./loaded.mjs
end
