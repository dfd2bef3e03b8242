#!/usr/bin/env bash
# Tries the command of the package for npm, as npx runs it and from its folder: rows of help and
# of arguments that leave the input unread, and the lines of pages. npm.sh says what it takes and
# needs.
cd "$(dirname "$0")/../../.." || exit 1
. tests/lib/tap.sh
. bindings/browser/tests/npm.sh
needs "$lexicat"
bin=$app/node_modules/.bin

by_npx() {
    (cd "$app" && npx --offline --cache "$room/cache" lexicat pick 'da, en' en fr) |
        grep -x 'matched en'
}

without_module() { # the status is none of the command's, as 1 would say that nothing was found
    local to=$room/without
    mkdir "$to" && cp "$installed"/*.mjs "$to" && : > "$to/lexicat.wasm"
    "$to/lexicat.mjs" pick en en 2> /dev/null
    [ $? -eq 70 ]
}

by_test() { # what is tried, and another test, whose skips are seen here too
    local what=$1 line
    shift
    check "$what" "$@"
    cp "$room/said" "$room/of-test"
    while IFS= read -r line; do
        if [[ $line =~ ^(ok\ [0-9]+\ -\ |1\.\.0)(.*)\ #\ SKIP\ (.*)$ ]]; then
            skip "$what: ${BASH_REMATCH[2]:-all}" "${BASH_REMATCH[3]}"
        fi
    done < "$room/of-test"
}

is_installed
check 'npx lexicat' by_npx
check 'its command without its module' without_module
by_test 'rows of the command' env LEXICAT="$bin/lexicat" tests/command/rows.t \
    tests/command/rows/{help,words_first}.rows
by_test 'lines of the pages' env LEXICAT_DIR="$bin" tests/pages/readme.t README.md docs/COMMAND.md \
    docs/RECIPES.md
end
