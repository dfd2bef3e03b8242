#!/usr/bin/env bash
# Compiles the portable C by gcc, clang and tcc, and for arm64 and s390x, whose bytes are in the
# other order. What each answers to 20,000 questions is compared with what build/lib answers, and
# what its command answers to the rows of tests/command with these. By gcc it is compiled as pip
# does it, which installs the source package for Python with a C compiler alone. Most of it is
# compiled without optimization, which takes a third of the time; the library by clang with it.
#
# Takes build/portable, build/lib and build/browser. Needed: the compilers, qemu, the Rattle kit for
# its licences, and Python with venv and pip, which may fetch nothing. The questions are made of
# SEED.
cd "$(dirname "$0")/../.." || exit 1
. tests/lib/tap.sh
. tests/library/library.sh
needs "${RT:-rt}" "$PWD/build/portable/silkwaram.c" "$PWD/build/lib/libsilkwaram.a" \
    build/browser/silkwaram.wasm gcc python3
made=$PWD/build/portable
# shellcheck disable=SC2125
of_wheel=$room/venv/lib/python3*/site-packages/silkwaram

is_installed() {
    local it
    mkdir "$room/bin" "$room/sdist"
    for it in gcc as ld; do ln -s "$(command -v "$it")" "$room/bin" || return 1; done
    tools/third-party > "$room/licences" && PYTHONPATH=bindings/python python3 -B -c '
import sys, in_tree_backend
places = dict(zip(("portable", "browser", "licences"), sys.argv[2:]))
in_tree_backend.build_sdist(sys.argv[1], places)' \
        "$room/sdist" "$made" "$PWD/build/browser" "$room/licences" &&
        (cd "$room" && env -i PATH="$room/bin" HOME="$room" PIP_NO_INDEX=1 CFLAGS=-O0 \
            venv/bin/pip install --quiet --disable-pip-version-check sdist/silkwaram-*.tar.gz)
}

# Compiles both libraries by a compiler.
compiles() { # NAME FLAG COMPILER..
    local to=$room/$1 flag=$2
    shift 2
    mkdir "$to" && "$@" "$flag" -c "$made/silkwaram.c" -o "$to/silkwaram.o" &&
        "$@" -c "$made/silkwaram_command.c" -o "$to/command.o"
}

# Builds the programs over two libraries.
builds() { # NAME LIBRARY COMMAND COMPILER..
    local to=$room/$1 library=$2 command=$3 it
    shift 3
    mkdir -p "$to"
    for it in answers statuses edits; do
        "$@" -D_GNU_SOURCE -Iinclude "$own/$it.c" "$library" -pthread -o "$to/$it" || return 1
    done
    "$@" -Iinclude bindings/portable/lexicat.c "$command" -pthread -o "$to/lexicat.run"
}

answers_alike() { # NAME RUNNER..
    local to=$room/$1
    shift
    "$@" "$to/statuses" && "$@" "$to/edits" &&
        "$@" "$to/answers" < "$room/questions" > "$to/answered" &&
        cmp "$to/answered" "$room/answered" && echo "$(wc -l < "$to/answered") answers are equal"
}

answers_rows() { # NAME RUNNER..
    local to=$room/$1
    shift
    printf '#!/bin/sh\nexec %s %s "$@"\n' "$*" "$to/lexicat.run" > "$to/lexicat"
    chmod +x "$to/lexicat"
    LEXICAT=$to/lexicat python3 tests/command/rows.t
}

# Tries what a compiler made. Its library and command are the objects that `compiles` left, unless
# they are named.
try() { # NAME RUNNER COMPILER LIBRARY COMMAND
    local name=$1 library=${4:-$room/$1/silkwaram.o} command=${5:-$room/$1/command.o}
    # shellcheck disable=SC2086
    check "$name: it is built" builds "$name" "$library" "$command" $3
    # shellcheck disable=SC2086
    check "$name: questions" answers_alike "$name" $2
    # shellcheck disable=SC2086
    check "$name: rows" answers_rows "$name" $2
}

# Each with what runs its programs, how it is called, and the flag for the library.
compilers=(
    'clang||clang|-O1' 'tcc||tcc|-O0'
    'arm64|qemu-aarch64|clang --target=aarch64-linux-gnu -static|-O0'
    's390x|qemu-s390x|clang --target=s390x-linux-gnu -static|-O0'
)

# Says what is not there of what a compiler needs, if anything.
lacking() { # NAME RUNNER COMPILER..
    local it
    for it in "$3" ${2:+"$2"}; do is_there "$it" || { echo "$it"; return; }; done
    case $1 in
        arm64) it=/usr/aarch64-linux-gnu/lib/libc.a ;;
        s390x) it=/usr/s390x-linux-gnu/lib/libc.a ;;
        *) return ;;
    esac
    [ -e "$it" ] || echo "$it"
}

says_seed
python3 -m venv "$room/venv" > "$room/made" 2>&1 || skip_all 'there is no venv of Python'
is_built answers
for it in "${compilers[@]}"; do
    IFS='|' read -r name runner words flag <<< "$it"
    # shellcheck disable=SC2086
    if [ -z "$(lacking "$name" "$runner" $words)" ]; then
        (compiles "$name" "$flag" $words > "$room/$name.said" 2>&1) &
    fi
done
python3 "$own/questions.py" --print 2858 > "$room/questions"
"$room/answers" < "$room/questions" > "$room/answered"
check 'the source package for Python is installed' is_installed
wait
check 'it answers' env -i "$room/venv/bin/lexicat" pick 'da, en-GB;q=0.8' en fr
# shellcheck disable=SC2086
try gcc '' gcc $of_wheel/libsilkwaram.so.0 $of_wheel/libsilkwaram-command.so.0
check 'gcc: threads' compiled threads threads_portable $of_wheel/libsilkwaram.so.0 -pthread
check 'gcc: four threads ask' "$room/threads_portable" 4 20000
for it in "${compilers[@]}"; do
    IFS='|' read -r name runner words flag <<< "$it"
    # shellcheck disable=SC2086
    it=$(lacking "$name" "$runner" $words)
    if [ -n "$it" ]; then lacks "$name" "$it"; else try "$name" "$runner" "$words"; fi
done
end
