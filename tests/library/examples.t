#!/usr/bin/env bash
# Builds the examples in C and runs them: one label of a site, and an exchange of two sites. Takes
# build/lib, and build/lexicat or the command that LEXICAT names. Needed: a C compiler; and
# valgrind, under which the exchange is run once more.
cd "$(dirname "$0")/../.." || exit 1
. tests/lib/tap.sh
. tests/library/library.sh
needs "$PWD/build/lib/libsilkwaram.a" "$lexicat" "$cc"

example_is_built() { # its source, and its name in the room
    "$cc" -std=c99 "${all_warnings[@]}" -Iinclude "examples/$1" -o "$room/$2" \
        build/lib/libsilkwaram.a
}

has_label() { "$room/label" "$room/site.json" greeting 'fr-CA, en;q=0.5' en | grep -x Bonjour; }

ends_with() { # status, what is printed on standard error, then the words of the example in C
    local wanted=$1 line=$2 status=0
    shift 2
    "$room/label" "$@" 2> "$room/refusal" > "$room/printed" || status=$?
    [ "$status" = "$wanted" ] && [ ! -s "$room/printed" ] &&
        printf '%s' "$line" | diff - "$room/refusal"
}

has_next_label() {
    "$room/label" "$room/site.json" greeting 'gsw, en;q=0.5' en gsw=fr | grep -x Bonjour
}

of_subtag='each subtag is 1 to 8 letters or digits, with a hyphen between two'
of_table='a table of fallbacks has elements TAG=TAG between commas, each left tag once'
of_json='one JSON text (RFC 8259) of at most 127 levels, without a number too large for a float'
refuses_in_words() {
    ends_with 1 '' "$room/site.json" greeting xx &&
        ends_with 3 "refused 3 at byte 0: $of_subtag"$'\n' "$room/site.json" greeting fr en_US &&
        ends_with 3 "refused 31 at byte 0: $of_table"$'\n' "$room/site.json" greeting fr en no &&
        ends_with 3 "refused 19: a document is $of_json"$'\n' examples/front/label.c greeting fr &&
        ends_with 4 "$room/nowhere: No such file or directory"$'\n' "$room/nowhere" greeting fr
}

exchanged='{"greeting":{"en":"Good day","fr":"Bonjour","ja":"こんにちは"}}'
has_exchanged() { "$room/exchange" | grep -xF "$exchanged"; }

check 'the exchange in C is built' example_is_built exchange/exchange.c exchange
check 'the example in C is built' example_is_built front/label.c label
[ "$failed" -eq 0 ] || end
write_site
check 'the example in C' has_label
check 'the example in C, by a table of fallbacks' has_next_label
check 'the example in C, where it has no label' refuses_in_words
check 'the exchange in C' has_exchanged
under_valgrind 'the exchange under valgrind' exchange
end
