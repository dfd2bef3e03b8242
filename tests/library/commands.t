#!/usr/bin/env bash
# Hands command lines to sw_command and to the command, and compares what each leaves. They are made
# at random by SEED; more are those of tests/command/rows, and some over a site of megabytes. Takes
# build/lib, and build/lexicat or the command that LEXICAT names. Needed: a C compiler and Python;
# and valgrind, under which some are asked once more.
#
# LIBRARY_COMMANDS says how many command lines are asked (5000).
cd "$(dirname "$0")/../.." || exit 1
. tests/lib/tap.sh
. tests/library/library.sh
needs "$PWD/build/lib/libsilkwaram.a" "$lexicat" "$cc" python3

says_seed
is_built command
check 'command lines' \
    python3 "$own/commands.py" "$lexicat" "${LIBRARY_COMMANDS:-5000}" "$room/command"
python3 "$own/commands.py" --print 300 > "$room/input"
under_valgrind 'command lines under valgrind' command
end
