#!/usr/bin/env bash
# Asks sites from several threads: while the site is read anew, and while one thread edits. Takes
# build/lib. Needed: a C compiler; and valgrind, under which fewer are asked once more.
#
# LIBRARY_THREADS says how many threads ask at once (4), LIBRARY_LOOKUPS how many lookups each makes
# (1000000), and LIBRARY_SECONDS how long they ask shares while one edits (5).
cd "$(dirname "$0")/../.." || exit 1
. tests/lib/tap.sh
. tests/library/library.sh
needs "$PWD/build/lib/libsilkwaram.a" "$cc"

is_built threads
is_built editing
threads=${LIBRARY_THREADS:-4}
check 'threads' "$room/threads" "$threads" "${LIBRARY_LOOKUPS:-1000000}"
check 'threads that ask while one edits' "$room/editing" "$threads" "${LIBRARY_SECONDS:-5}"
under_valgrind 'threads under valgrind' threads 4 2000
under_valgrind 'edits under valgrind' editing 2 3
end
