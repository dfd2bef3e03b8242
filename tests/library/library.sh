# shellcheck shell=bash disable=SC2034,SC2154
# What the tests of the library for C share. They take build/lib as it was built before, and
# build/lexicat, or the command that LEXICAT names; what they compile goes to the folder `room`.
# A test sources this file after tests/lib/tap.sh.
lexicat=${LEXICAT:-$PWD/build/lexicat}
cc=${CC:-cc}
cxx=${CXX:-c++}
own=tests/library
library=$PWD/build/lib/libsilkwaram.so
all_warnings=(-Wall -Wextra -Wpedantic -Werror)
wrapped_malloc=(-Wl,--wrap=malloc -Wl,--wrap=realloc)

compiled() { # a program of this folder, its name in the room, and more words of the compiler
    "$cc" -std=c11 -D_GNU_SOURCE -O2 -g "${all_warnings[@]}" -Iinclude "$own/$1.c" \
        -o "$room/$2" "${@:3}"
}

of_archive() { # a program that is linked with the archives alone
    compiled "$1" "$1" build/lib/libsilkwaram.a build/lib/libsilkwaram-command.a -pthread "${@:2}"
}

of_shared() { # a program that takes the shared library
    compiled "$1" "${1}_shared" -Lbuild/lib -lsilkwaram -Wl,-rpath,"$PWD/build/lib"
}

is_built() { # a program, and more words of the compiler; what is tried of it needs it
    check "$1.c is built over the archive" of_archive "$@"
    [ -x "$room/$1" ] || end
}

is_built_over_shared() {
    check "$1.c is built over the shared library" of_shared "$1"
    [ -x "$room/${1}_shared" ] || end
}

# A site that has the labels of the examples, in room/site.json.
write_site() {
    {
        "$lexicat" new --site front
        cat examples/front/labels.json
    } | "$lexicat" import --now 1 > "$room/site.json"
}

without_faults() { # under valgrind: no error, and each byte given back
    valgrind --leak-check=full --show-leak-kinds=all --errors-for-leak-kinds=all \
        --error-exitcode=9 "$@" > "$room/output" 2> "$room/valgrind" < "$room/input" ||
        { tail -n 40 "$room/valgrind" "$room/output"; return 1; }
    grep -q 'All heap blocks were freed' "$room/valgrind" ||
        { tail -n 20 "$room/valgrind"; return 1; }
    grep 'ERROR SUMMARY' "$room/valgrind" | sed 's/.*ERROR/ERROR/'
}

: > "$room/input"
under_valgrind() { # what is tried, then a program of the room, whose input is room/input
    if is_there valgrind; then
        check "$1" without_faults "$room/$2" "${@:3}"
    else
        lacks "$1" valgrind
    fi
}
