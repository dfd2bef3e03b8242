#!/usr/bin/env bash
# Refuses each allocation in turn of the built command: of its arguments, of a long and a short
# input, and of what it prints. It has to answer as with ample memory, on both of its outputs, or to
# end with status 5, nothing on standard output and just the line `refused 26: out of memory` on
# standard error. (Lines of every command are tried so by tests/library/memory.t, in the call of the
# whole command.) Takes build/lexicat, or the command that LEXICAT names. Needed: a C compiler (CC,
# or cc), for the few lines that come before `malloc` and `realloc`, the two that the command calls.
cd "$(dirname "$0")/../.." || exit 1
. tests/lib/tap.sh
lexicat=${LEXICAT:-$PWD/build/lexicat}
cc=${CC:-cc}
needs "$lexicat" "$cc"

one='{"cells":[["m","en",5,"0000000001",0,["a"]],["n","de",6,"0000000001",0,["b","c"]]]'
one+=',"kind":"site","site":"0000000001","version":2}'
two='{"cells":[["m","en",7,"0000000003",0,null]],"kind":"site","site":"0000000002","version":2}'
script='{"kind":"script","sites":2,"steps":[["tell",1],["edit",0,["m","en",5,1,0,["a"]]]'
script+=',["post",0,0],["deliver",0],["cells",1]],"version":1}'
# shellcheck disable=SC2059
long=$(printf "$one%20000s" '')
printf 'refused 26: out of memory\n' > "$room/out-of-memory"

run() { # number of the allocation that is refused, or 0; then the words
    status=0
    REFUSED_ALLOCATION=$1 LD_PRELOAD=$room/refuse.so "$lexicat" "${@:2}" < "$room/input" \
        > "$room/got" 2> "$room/errors" || status=$?
}

is_out_of_memory() {
    [ "$status" = 5 ] && [ ! -s "$room/got" ] && cmp -s "$room/out-of-memory" "$room/errors"
}

is_as_before() { # the status
    [ "$status" = "$1" ] && cmp -s "$room/wanted" "$room/got" &&
        cmp -s "$room/wanted.errors" "$room/errors"
}

refuses_each() { # the status with ample memory, then the words
    local wanted=$1 count number
    shift
    run 0 "$@"
    count=$(sed -n 's/^allocations=//p' "$room/errors")
    sed '/^allocations=/d' "$room/errors" > "$room/wanted.errors"
    mv "$room/got" "$room/wanted"
    [ "$status" = "$wanted" ] || { echo "status $status with ample memory"; return 1; }
    [ "$count" -gt 0 ] || { echo 'no allocation was seen'; return 1; }
    for number in $(seq 1 "$count"); do
        run "$number" "$@"
        is_out_of_memory || is_as_before "$wanted" ||
            { echo "allocation $number: status $status"; return 1; }
    done
    echo "$count allocations, each refused in turn"
}

try() { # the status with ample memory, the input, then the words
    local wanted=$1
    printf '%s\n' "$2" > "$room/input"
    shift 2
    check "$*" refuses_each "$wanted" "$@"
}

check 'what refuses is built' \
    "$cc" -O2 -shared -fPIC -o "$room/refuse.so" tests/memory/refuse.c -ldl
try 0 '' pick --lenient --default en 'de_CH, fr;q=0.5' en de
try 1 '' pick --all ja en
try 3 '' pick en e
try 2 '' explain 32
try 0 '' new --site paris
try 0 '' help sync
try 2 '' sink
try 0 "$one" put --now 9 --id m --lang fr a b
try 0 "$long" lookup --id m --default en de
try 3 "$one" changes
try 0 "$one"$'\n'"$two" sync --not-after 7
try 0 "$one"$'\n'"$two"$'\n'"$one" merge
try 3 "$one"$'\n'"$two"$'\n'"$one" merge --not-after 6
try 0 "$long" status
try 0 "$script" replay
end
