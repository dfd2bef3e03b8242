#!/usr/bin/env bash
# Asks documents where they lie, and mutated ones. They are made at random, by SEED. Each answer has
# to be that of the site that the document opens, and no byte outside of a document is read.
# Documents that PHP, Python and Go write have the answers that their labels say. Takes build/lib.
# Needed: a C compiler; PHP and Python, which write documents; and valgrind, under which some are
# asked once more.
#
# LIBRARY_TEXT_QUESTIONS says how many questions each of 500 documents is asked (200),
# LIBRARY_REWRITTEN how many each of 400 that other programs write (64), and LIBRARY_MUTATED how
# many mutated ones are asked (20000; before a release 1000000).
cd "$(dirname "$0")/../.." || exit 1
. tests/lib/tap.sh
. tests/library/library.sh
needs "$PWD/build/lib/libsilkwaram.a" "$cc"

rewritten() { # sites, and questions to each
    python3 "$own/rewritten.py" "$1" "$2" > "$room/rewritten" &&
        "$room/text" expect "$room/rewritten"
}

says_seed
is_built text
check 'documents where they lie' "$room/text" ask "$SEED" 500 "${LIBRARY_TEXT_QUESTIONS:-200}"
check 'mutated documents where they lie' \
    "$room/text" mutate $((SEED + 1)) "${LIBRARY_MUTATED:-20000}"
if is_there php && is_there python3; then
    check 'documents as PHP, Python and Go write them' \
        rewritten 400 "${LIBRARY_REWRITTEN:-64}"
else
    lacks 'documents as PHP, Python and Go write them' 'PHP or no Python'
fi
under_valgrind 'documents where they lie, under valgrind' text ask $((SEED + 2)) 20 20
under_valgrind 'mutated documents under valgrind' text mutate $((SEED + 3)) 400
end
