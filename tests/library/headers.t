#!/usr/bin/env bash
# Compiles the headers under all warnings, each alone, as C99 and C11, and as C++11 and C++17, where
# the calls have the names of C. Needed: a C compiler (CC, or cc), and one of C++ (CXX, or c++),
# with Python.
cd "$(dirname "$0")/../.." || exit 1
. tests/lib/tap.sh
. tests/library/library.sh

compiles_as() { # the compiler, its name of the language, and the standard
    local header more=()
    if [ "$2" = c ]; then more=(-Wstrict-prototypes); fi
    for header in include/*.h; do
        "$1" -x "$2" -std="$3" "${all_warnings[@]}" "${more[@]}" -fsyntax-only "$header" || return
    done
}

headers_as() { # a compiler, its name of the language, and standards
    local standard compiler=$1 language=$2
    shift 2
    for standard; do
        if is_there "$compiler"; then
            check "the headers as ${standard^}" compiles_as "$compiler" "$language" "$standard"
        else
            lacks "the headers as ${standard^}" "$compiler"
        fi
    done
}

have_names_of_c() { # each call, where C++ refers to it
    {
        printf '#include "%s"\n' include/*.h
        for it in include/*.h; do tools/calls names "$it"; done | sed 's/.*/auto *of_& = &;/'
    } > "$room/calls.cpp"
    "$cxx" -std=c++17 -I. -S "$room/calls.cpp" -o "$room/calls.s" &&
        grep -q sw_version "$room/calls.s" && ! grep '_Z[0-9]*sw_' "$room/calls.s"
}

headers_as "$cc" c c99 c11
headers_as "$cxx" c++ c++11 c++17
if is_there "$cxx" && is_there python3; then
    check 'the names of the calls in C++' have_names_of_c
else
    lacks 'the names of the calls in C++' "$cxx or python3"
fi
end
