#!/usr/bin/env bash
# Tries what the library takes of memory: each allocation of its calls and of command lines is
# refused in turn, alone and with all after it; the memory of handles is counted, and the stack of
# each call is measured. Takes build/lib. Needed: a C compiler and Python.
cd "$(dirname "$0")/../.." || exit 1
. tests/lib/tap.sh
. tests/library/library.sh
needs "$PWD/build/lib/libsilkwaram.a" "$cc" python3

# (each call of the header has a case, or they are not compiled)
tools/calls tests > "$room/calls.h"
is_built refused "-I$room" "${wrapped_malloc[@]}"
is_built refused_command "${wrapped_malloc[@]}"
is_built shares "${wrapped_malloc[@]}" -Wl,--wrap=free
is_built stacks "-I$room"
check 'refused allocations' "$room/refused"
check 'refused allocations of command lines' "$room/refused_command"
check 'the memory of handles' "$room/shares"
check 'the stack of each call' "$room/stacks"
end
