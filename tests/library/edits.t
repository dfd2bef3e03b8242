#!/usr/bin/env bash
# Makes edits and exchanges by the library, from Python, and by the command, and compares each step.
# The sequences are made at random by SEED. Takes build/lib, and build/lexicat or the command that
# LEXICAT names. Needed: Python.
#
# LIBRARY_SEQUENCES says how many sequences are made (1000).
cd "$(dirname "$0")/../.." || exit 1
. tests/lib/tap.sh
. tests/library/library.sh
needs "$library" "$lexicat" python3
export SILKWARAM_LIBRARY=$library PYTHONPATH=$PWD/bindings/python/src

says_seed
check 'edits and exchanges' python3 "$own/edits.py" "$lexicat" "${LIBRARY_SEQUENCES:-1000}"
end
