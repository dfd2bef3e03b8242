#!/usr/bin/env bash
# Installs the library below a folder by `make install-library`: a program finds it by pkg-config,
# and nothing is left when it is taken away. Takes build/lib as it is, also where a source is newer,
# and build/lexicat or the command that LEXICAT names. Needed: make, pkg-config and a C compiler.
cd "$(dirname "$0")/../.." || exit 1
. tests/lib/tap.sh
. tests/library/library.sh
needs "$PWD/build/lib/libsilkwaram.a" "$lexicat" "$cc" make pkg-config

to=$room/usr
makes() { # a goal; -o has make take the library as it is, so nothing is built beside other tests
    make --no-print-directory -o library -o build/lib/libsilkwaram.a "$1" \
        DESTDIR= PREFIX="$to" LIBDIR="$to/lib"
}

is_found() { # by pkg-config
    local words
    words=$(PKG_CONFIG_PATH=$to/lib/pkgconfig pkg-config --cflags --libs silkwaram) || return
    # shellcheck disable=SC2086
    "$cc" examples/front/label.c -o "$room/installed" $words -Wl,-rpath,"$to/lib"
}

answers() { "$room/installed" "$room/site.json" greeting ja | grep -x 'おはようございます'; }

is_taken_away() { makes uninstall && [ -z "$(find "$to" ! -type d)" ]; }

write_site
check 'the library is installed' makes install-library
check 'pkg-config names it to a compiler' is_found
check 'a program that is linked with it answers' answers
check 'it is taken away' is_taken_away
end
