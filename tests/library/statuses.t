#!/usr/bin/env bash
# Calls the library from C with right and wrong arguments, and compares the status, the report and
# the bytes of each answer, over the archive and over the shared library. Takes build/lib. Needed: a
# C compiler; and valgrind, under which the same is tried once more.
cd "$(dirname "$0")/../.." || exit 1
. tests/lib/tap.sh
. tests/library/library.sh
needs "$PWD/build/lib/libsilkwaram.a" "$cc"

for it in statuses edits; do
    is_built "$it"
    is_built_over_shared "$it"
done
check 'statuses, over the archive' "$room/statuses"
check 'statuses, over the shared library' "$room/statuses_shared"
check 'statuses of edits, over the archive' "$room/edits"
check 'statuses of edits, over the shared library' "$room/edits_shared"
under_valgrind 'statuses under valgrind' statuses
under_valgrind 'statuses of edits under valgrind' edits
end
