# shellcheck shell=bash disable=SC2034,SC2154
# What the tests of lexicat-check share.
. bindings/python/tests/tools/lib.sh
own=$PWD/bindings/python/tests/tools/check
rules=$PWD/bindings/python/src/silkwaram/editor/page/placeholders.mjs

# site: an empty site of lyon.
site() { new_site site.json lyon; }

# reports LINE..: the last command wrote these lines to standard error, and no other.
reports() {
    [ "$(cat errors)" = "$(printf '%s\n' "$@")" ] \
        || fault "wanted '$*' on standard error, not '$(cat errors)'"
}

# verdicts_of LABELS: what lexicat-check finds in the placeholders of each label, in
# LABELS.verdicts.
verdicts_of() {
    /usr/bin/python3 "$own/verdicts.py" < "$1" > "$1.verdicts" || fault "lexicat-check ends over $1"
    [ "$(wc -l < "$1.verdicts")" = "$(wc -l < "$1")" ] || fault "not a verdict of each label of $1"
}

# as_editor LABELS: the editor's page has the same verdicts.
as_editor() {
    node "$own/verdicts.mjs" "$rules" < "$1" > others || fault "the editor ends over $1"
    cmp -s "$1.verdicts" others || fault "the editor differs:" \
        "$(paste "$1" "$1.verdicts" others | awk -F '\t' '$2 != $3' | head -n 3)"
}

# by_editor NAME LABELS: tries that, where Node is there.
by_editor() {
    if ! is_there node; then
        lacks "$1" node
    elif [ ! -s "$2.verdicts" ]; then
        fail "$1" "there are no verdicts to compare with"
    else
        try "$1" as_editor "$2"
    fi
}
