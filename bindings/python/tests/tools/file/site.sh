# shellcheck shell=bash disable=SC2034,SC2154
# What the tests of lexicat-file and lexicat-edit share. They expect what
# docs/COMMAND.md and the manual pages promise, never what was printed before.
. bindings/python/tests/tools/lib.sh

# site: an empty site of paris.
site() { new_site paris.json paris; }

# reports TEXT: the last command wrote a text to standard error.
reports() {
    grep -qF -- "$1" errors || fault "wanted '$1' on standard error, not '$(cat errors)'"
}

# same FILE FILE: they are equal, byte for byte.
same() {
    cmp -s "$1" "$2" || fault "$1 and $2 differ"
}

# tidy: nothing is left beside the sites but their locks, and nothing in TMPDIR.
tidy() {
    local left
    left=$(find "$part" -maxdepth 3 \( -name '*.next.lexicat-*' -o -name 'lexicat-*.*' \))
    [ -z "$left" ] || fault "left behind: $left"
}

# a_program NAME TEXT: a program that is found before all others of that name, if the folder
# programs is on the PATH.
a_program() {
    mkdir -p programs
    printf '#!/bin/sh\n%s\n' "$2" > "programs/$1"
    chmod +x "programs/$1"
}

# remedy N LINE: the last command was refused by this line, and the next one says what to do.
remedy() {
    sed -n '/^refused /,$p' errors > refusal
    [ "$(sed -n 1p refusal)" = "$2" ] || fault "wanted '$2', not '$(cat errors)'"
    [ "$(sed -n 2p refusal)" = "$("$LEXICAT" explain "$1" | grep '^what to do: ')" ] \
        || fault "no remedy of $1 in '$(cat errors)'"
}

# labels JSON [SITE]: the site has just these labels.
labels() {
    "$LEXICAT" export < "${2:-paris.json}" > output
    [ "$(cat output)" = "$1" ] || fault "labels $(cat output), not $1"
}

# cells CELL..: the site has just these cells.
cells() {
    local wanted
    wanted=$(IFS=,; echo "$*")
    [ "$(jq -c .cells paris.json)" = "[$wanted]" ] || fault "$(cat paris.json), not $wanted"
}

