#!/usr/bin/env bash
# Asks the library and the command the same questions, which are made at random by SEED, and
# compares the answers; and what the library says of refusals with the command and with
# docs/REFUSALS.md. Takes build/lib, and build/lexicat or the command that LEXICAT names. Needed: a
# C compiler and Python; and valgrind, under which some are asked once more.
#
# LIBRARY_QUESTIONS says how many questions each call is asked (1000).
cd "$(dirname "$0")/../.." || exit 1
. tests/lib/tap.sh
. tests/library/library.sh
needs "$PWD/build/lib/libsilkwaram.a" "$lexicat" "$cc" python3
export SILKWARAM_LIBRARY=$library PYTHONPATH=$PWD/bindings/python/src

says_seed
is_built answers
check 'questions' \
    python3 "$own/questions.py" "$lexicat" "$room/answers" "${LIBRARY_QUESTIONS:-1000}"
check 'refusals' python3 "$own/refusals.py" "$lexicat"
python3 "$own/questions.py" --print 60 > "$room/input"
under_valgrind 'questions under valgrind' answers
end
