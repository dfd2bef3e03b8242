#!/usr/bin/env bash
# shellcheck disable=SC2016,SC2034,SC2154
# Tries lexicat-file with writers and syncs at once: what was acknowledged is there, and each site can be
# read at each moment. (crashes.t has writers that are killed.) It takes and needs what
# bindings/python/tests/tools/lib.sh says.
cd "$(dirname "$0")/../../../../.." || exit 1
. bindings/python/tests/tools/file/site.sh

# texts: a line `ID LANGUAGE TEXT` for each label of paris.json.
texts() {
    "$LEXICAT" export < paris.json \
        | jq -r 'to_entries[] | .key as $id | .value | to_entries[] | "\($id) \(.key) \(.value)"'
}

# edit WRITER N: the Nth edit of a writer, in one of four ways, half of them by put.
edit() {
    case $(($2 % 6)) in
        0) echo "{\"$1-$2\":{\"en\":\"text-$2\"}}" | lexicat-file paris.json import ;;
        2) printf '{}\n{"%s-%s":{"en":"text-%s"}}' "$1" "$2" "$2" \
            | lexicat-file paris.json update ;;
        4) lexicat-file paris.json take < "delta-$1-$2" ;;
        *) lexicat-file paris.json put --id "$1-$2" --lang en "text-$2" ;;
    esac
}

# make_delta WRITER N: what the Nth edit takes, from a desk of its own.
make_delta() {
    ("$LEXICAT" new --site "desk-$1" | "$LEXICAT" put --now 5 --id "$1-$2" --lang en "text-$2"
    "$LEXICAT" new --site paris | "$LEXICAT" summary) | "$LEXICAT" delta > "delta-$1-$2"
}

# writer NAME COUNT: edits, and keeps the number of each one that ended well.
writer() {
    local n
    for ((n = 1; n <= $2; n++)); do
        edit "$1" "$n" 2>> errors-by-writers && echo "$1-$n en text-$n" >> "acknowledged-$1"
    done
}

four_writers() {
    local writer n readers=0
    site
    for writer in a b c d; do
        for ((n = 4; n <= 60; n += 6)); do make_delta "$writer" "$n"; done
    done
    for writer in a b c d; do writer "$writer" 60 & done
    while [ -n "$(jobs -r)" ]; do
        lexicat-file paris.json status > output 2> errors || fault "not readable: $(cat errors)"
        readers=$((readers + 1))
        sleep 0.1
    done
    wait
    cat acknowledged-* 2> output | sort > acknowledged
    for writer in a b c d; do
        for ((n = 1; n <= 60; n++)); do echo "$writer-$n en text-$n"; done
    done | sort > wanted
    (texts || true) | sort > there
    same acknowledged wanted
    same there wanted
    tidy
    says "$(comm -12 there wanted | wc -l) of 240 edits, read $readers times"
}

# equal: two files have the same cells.
equal() {
    [ "$(jq -c .cells paris.json)" = "$(jq -c .cells tokyo.json)" ]
}

# fifteen sync FILE OTHER, or fifteen put FILE LANGUAGE: so many calls, to the first that fails.
fifteen() {
    local n
    for ((n = 0; n < 15; n++)); do
        if [ "$1" = sync ]; then
            timeout "$patience" lexicat-file "$2" sync "$3"
        else
            lexicat-file "$2" put --id "$3-$n" --lang "$3" x
        fi || { echo "$*" >> failed; break; }
    done
}

two_syncs() {
    site
    lexicat-file tokyo.json new --site tokyo
    fifteen sync tokyo.json paris.json &
    fifteen sync paris.json tokyo.json &
    fifteen put tokyo.json ja &
    fifteen put paris.json fr &
    wait
    [ ! -e failed ] || fault "$(wc -l < failed) calls failed"
    ends 0 lexicat-file tokyo.json sync paris.json
    equal || fault "different cells"
    [ "$(jq '.cells | length' paris.json)" -eq 30 ] || fault "not the 30 edits"
    tidy
}

half_a_sync() {
    site
    lexicat-file tokyo.json new --site tokyo
    lexicat-file tokyo.json put --id first --lang ja x
    ends 0 lexicat-file tokyo.json sync paris.json
    cp tokyo.json before
    lexicat-file paris.json put --id last --lang fr x
    export FAIL=os.replace:EIO:tokyo.json
    ends 4 lexicat-file tokyo.json sync paris.json
    reports 'tokyo.json: cannot be replaced'
    same tokyo.json before
    ends 4 lexicat-file paris.json sync tokyo.json
    reports 'tokyo.json: cannot be replaced: Input/output error, and paris.json has both: run sync again'
    same tokyo.json before
    unset FAIL
    ends 0 lexicat-file paris.json sync tokyo.json
    equal || fault "different cells after the second try"
    tidy
}

try 'four writers at once' four_writers
try 'two syncs of the same files in opposite order, and edits between them' two_syncs
try 'a sync that stops between its two renames' half_a_sync
end
