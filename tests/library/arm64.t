#!/usr/bin/env bash
# Asks what was built for arm64 under qemu-user, and compares its answers with those of x86-64, byte
# for byte: the library's to questions and those of sw_command to command lines, both made at random
# by SEED, and the command's to all of tests/command/rows. Then the Debian packages for arm64 are
# installed in an empty root, and the wheel is unpacked: the command of the package answers, and so
# do C programs that are built with the library of the package, by that one and by the wheel's.
#
# Takes build/arm64, build/lib and build/browser. Needed: the Rattle kit; a C compiler; one for
# arm64 with its C library (Debian's gcc-aarch64-linux-gnu and libc6-dev-arm64-cross); qemu-user,
# dpkg, pkg-config, make, git and Python.
#
# ARM64_QUESTIONS says how many questions are asked (20000), ARM64_COMMANDS how many command lines
# (1000).
cd "$(dirname "$0")/../.." || exit 1
. tests/lib/tap.sh
. tests/library/library.sh
rt=${RT:-rt}
target=aarch64-linux-gnu
export QEMU_LD_PREFIX=/usr/$target
needs "$PWD/build/arm64/lexicat" "$PWD/build/lib/libsilkwaram.a" \
    "$PWD/build/browser/silkwaram.wasm" "$rt" "$cc" "$target-gcc" \
    "$QEMU_LD_PREFIX/include/stdlib.h" qemu-aarch64 dpkg pkg-config make git python3
shown=bindings/browser/tests/shuffle.ll

# Compiles a program of this folder for both processors.
for_both() { # the program, and what is linked to it for x86-64 and for arm64
    compiled "$1" "$1" "$2" && cc=$target-gcc compiled "$1" "$1.arm64" "$3"
}

# Both print the same.
is_the_same() { # the program, its input, and its arguments
    "$room/$1" "${@:3}" < "$2" > "$room/wanted" &&
        qemu-aarch64 "$room/$1.arm64" "${@:3}" < "$2" > "$room/found" &&
        cmp "$room/wanted" "$room/found" && [ -s "$room/found" ] &&
        echo "$(wc -c < "$room/found") bytes"
}

shuffles() {
    "$(dirname "$(dirname "$(readlink -f "$(command -v "$rt")")")")/toolchain/bin/clang" \
        -c -x ir "$shown" -o "$room/shuffle.o" &&
        RT=$rt tools/arm64 --of "$shown" "$room/shuffle.arm64.o" &&
        for_both shuffles "$room/shuffle.o" "$room/shuffle.arm64.o" &&
        is_the_same shuffles /dev/null "$SEED"
}

asked() { # a library, its program, and the script that prints so many questions
    for_both "$2" "build/lib/lib$1.a" "build/arm64/lib/lib$1.a" &&
        python3 "$own/$3" --print "$4" > "$room/asked" && is_the_same "$2" "$room/asked"
}

questions() { # (the script makes seven of one, and opens some sites)
    asked silkwaram answers questions.py "$(($1 / 7))" &&
        echo "$(wc -l < "$room/found") answers" && [ "$(wc -l < "$room/found")" -ge "$1" ]
}

threads() {
    cc=$target-gcc compiled threads threads.arm64 build/arm64/lib/libsilkwaram.a -pthread &&
        qemu-aarch64 "$room/threads.arm64" 4 2000
}

printf '#!/bin/sh\nexec qemu-aarch64 "%s" "$@"\n' "$PWD/build/arm64/lexicat" > "$room/lexicat"
chmod +x "$room/lexicat"
rows() {
    LEXICAT=$room/lexicat python3 tests/command/rows.t > "$room/rows"
    local status=$?
    grep -A 5 '^not ok' "$room/rows"
    awk '/ questions, / { sum += $4 } END { print sum " questions" }' "$room/rows"
    return "$status"
}

packed=$room/packed
root=$room/root
installs() { # (nothing of Debian is in the root, so what the packages depend on is not there)
    tools/dist --arm64 "$packed" && mkdir -p "$root/var/lib/dpkg"/{info,updates} &&
        touch "$root/var/lib/dpkg/status" &&
        dpkg --root="$root" --force-not-root --force-depends --force-architecture \
            --log=/dev/null --install "$packed"/*.deb &&
        [ "$(dpkg --root="$root" --list '*silkwaram*' | grep -c '^ii .* arm64 ')" = 3 ]
}

answers() {
    qemu-aarch64 "$root/usr/bin/lexicat" pick 'da, en-GB;q=0.8, en;q=0.7' en fr |
        grep -x 'matched en'
}

builds() { # programs of the examples, with the library of the package
    local words it
    words=$(PKG_CONFIG_SYSROOT_DIR=$root PKG_CONFIG_LIBDIR=$root/usr/lib/$target/pkgconfig \
        pkg-config --cflags --libs silkwaram) || return
    for it in front/label exchange/exchange; do
        # shellcheck disable=SC2086
        "$target-gcc" "examples/$it.c" -o "$room/${it#*/}" $words || return
    done
}

with_library() { # the folder of the library, a program, and its arguments
    [ -f "$1/libsilkwaram.so.0" ] && qemu-aarch64 -E LD_LIBRARY_PATH="$1" "$room/$2" "${@:3}"
}

label_by() { # the folder of the library
    with_library "$1" label "$room/site.json" greeting ja | grep -x 'おはようございます'
}

exchange_by() {
    "$cc" -Iinclude examples/exchange/exchange.c build/lib/libsilkwaram.a -o "$room/native" &&
        "$room/native" > "$room/wanted" && with_library "$1" exchange | diff "$room/wanted" -
}

unpacks() { # the wheel, whose name says for which machines it is
    python3 -m zipfile -e "$packed"/silkwaram-*-manylinux_2_17_aarch64.whl "$room/wheel"
}

says_seed
check 'the instruction of x86 is replaced' shuffles
check 'questions to the library' questions "${ARM64_QUESTIONS:-20000}"
check 'command lines in one call' asked silkwaram-command command commands.py \
    "${ARM64_COMMANDS:-1000}"
check 'threads that ask at once' threads
check 'the rows of the command' rows
check 'the packages are installed in an empty root' installs
check 'the command of the package answers' answers
check 'programs are built with the library of the package' builds
lexicat=$room/lexicat
write_site
check 'a reader gets a label' label_by "$root/usr/lib/$target"
check 'two sites exchange' exchange_by "$root/usr/lib/$target"
check 'the wheel is for arm64' unpacks
check 'a reader gets a label by the library of the wheel' label_by "$room/wheel/silkwaram"
end
