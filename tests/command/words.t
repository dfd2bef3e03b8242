#!/usr/bin/env bash
# Hands inputs to the command that Markdown cannot show: arguments that are not UTF-8 end with
# status 2, and an input of one byte more than a document may have is refused, each with nothing on
# the output. Takes build/lexicat, or the command that LEXICAT names.
cd "$(dirname "$0")/../.." || exit 1
. tests/lib/tap.sh
lexicat=${LEXICAT:-$PWD/build/lexicat}
needs "$lexicat"
most=67108864

ends_with() { # a status, then the arguments; the input is that of the call
    local wanted=$1 status=0
    shift
    "$lexicat" "$@" > "$room/output" 2> "$room/faults" || status=$?
    if [ "$status" = "$wanted" ] && [ ! -s "$room/output" ]; then return; fi
    printf 'status %s: %q\n' "$status" "$*"
    return 1
}

blanks() { head -c "$1" /dev/zero | tr '\0' ' '; }

refuses_blanks() { # how many, and the line on standard error
    ends_with 3 status < <(blanks "$1") && printf '%s\n' "$2" | diff - "$room/faults"
}

check 'a command that is not UTF-8' ends_with 2 $'\xff'
check 'a field that is not UTF-8' ends_with 2 pick $'\xff' en
check 'a tag that is not UTF-8' ends_with 2 pick en $'\xc3'
check 'a value that is not UTF-8' ends_with 2 new --site $'\xff'
check 'a word too many that is not UTF-8' ends_with 2 status $'\xff'
check 'an input of one byte more than a document may have' \
    refuses_blanks $((most + 1)) "refused 23: document is over $most bytes"
check 'an input of the bytes that a document may have' \
    refuses_blanks "$most" 'refused 19: not JSON of document 1'
end
