#!/usr/bin/env bash
# Runs the package for PHP: its declarations beside the header, the page of the examples as web
# servers ask for it, edits and an exchange of two sites, and its installation by Composer. php.sh
# says what it takes and needs; besides Python, Composer, curl and a C compiler.
cd "$(dirname "$0")/../../.." || exit 1
. tests/lib/tap.sh
. bindings/php/tests/php.sh
needs python3
package=$PWD/bindings/php
page=$PWD/examples/front/page.php
greeting='<p lang="de-ch" dir="auto">Grüezi</p>'

# A site that has the labels of the examples.
{ "$lexicat" new --site front; cat examples/front/labels.json; } |
    "$lexicat" import --now 1 > "$room/site.json"
export SITE=$room/site.json

has_declarations() {
    tools/calls php | diff - "$package/src/silkwaram.h"
}

has_the_page() { # a header, a line of the page, and words of PHP
    HTTP_ACCEPT_LANGUAGE=$1 php "${@:3}" "$page" | grep -x "$2"
}

prints() { # a program of this folder, and what it is given; it prints the text beside it
    with_ffi "$own/$1" "${@:2}" > "$room/printed" && diff "$room/printed" "$own/$1.txt"
}

version=$(sed -nE 's/^#define SW_VERSION ([0-9]+)$/\1/p' include/silkwaram.h)
says_over() { # what each call of a library returns, its version, and what PHP says of it
    tools/calls names | sed "s/.*/int &(void) { return $1; }/; /sw_version/s/$1/$2/" |
        "${CC:-cc}" -w -shared -fPIC -x c - -o "$room/other.so" &&
        SILKWARAM_LIBRARY=$room/other.so with_ffi "$page" 2>&1 | grep -F "$3"
}

# A web server of PHP over the page. It allows FFI in what is preloaded alone.
serve() { # words of PHP
    local server=(-d ffi.enable=preload -d opcache.enable_cli=1 "$@")
    for _ in {1..9}; do
        port=$((RANDOM % 20000 + 20000))
        # (emptied here, so that no line of a former server is seen)
        : > "$room/server"
        php "${server[@]}" -S "127.0.0.1:$port" "$page" >> "$room/server" 2>&1 &
        running=$!
        while kill -0 "$running" 2> "$room/gone"; do
            if grep -q 'Development Server .* started' "$room/server"; then return; fi
            sleep 0.02
        done
    done
    cat "$room/server"
    return 1
}

asks() { # a line of the page
    curl -s -H 'Accept-Language: de-CH, fr;q=0.5' "http://127.0.0.1:$port/" > "$room/page"
    kill "$running"
    wait "$running"
    grep "$1" "$room/page" "$room/server"
}

# (a copy, which the user that preloads can read wherever the repository is)
copy=$room/package
cp -r "$package" "$copy"
chmod 755 "$room"
preload=(-d "opcache.preload=$copy/autoload.php" -d opcache.preload_user=nobody)
serves_by_preload() { serve "${preload[@]}" && asks "$greeting"; }
serves_nothing_else() { serve && asks 'FFI API is restricted'; }

# The declarations are read when the server starts, as their file is gone then, and the library is
# where the loader finds it.
serves_by_both() {
    mkdir "$room/lib"
    ln -s "$library" "$room/lib/libsilkwaram.so.0"
    (
        unset SILKWARAM_LIBRARY
        export LD_LIBRARY_PATH=$room/lib
        serve "${preload[@]}" -d "ffi.preload=$copy/src/silkwaram.h" || exit
        rm "$copy/src/silkwaram.h"
        asks "$greeting"
    )
}

composed() { # installed offline in a folder of its own
    mkdir "$room/app"
    printf '{"repositories": [{"packagist.org": false}, {"type": "path", "url": "%s",
        "options": {"symlink": false}}], "require": {"silkwaram/silkwaram": "*"}}' "$package" \
        > "$room/app/composer.json"
    COMPOSER_HOME=$room/home COMPOSER_ALLOW_SUPERUSER=1 \
        composer --no-interaction --working-dir="$room/app" install &&
        COMPOSER_HOME=$room/home composer validate --no-check-version "$package/composer.json"
}

shows_its_page() { # the page of the README
    cp "$room/site.json" "$room/app"
    sed -n '/^```php$/,/^```$/{ /^```/!p }' "$package/README.md" > "$room/app/page.php"
    (cd "$room/app" && HTTP_ACCEPT_LANGUAGE='fr-CA, en;q=0.5' with_ffi page.php) |
        grep -x '<p lang="fr">Bonjour</p>'
}

check 'the declarations are those of the header' has_declarations
check 'a page' has_the_page 'de-CH, fr;q=0.5' "$greeting" -d ffi.enable=true
check 'a page for *;q=0' has_the_page '*;q=0' '<p lang="en" dir="auto">.*</p>' -d ffi.enable=true
check 'a page for a malformed header' has_the_page 'de-CH,;' "$greeting" -d ffi.enable=true
check 'edits and an exchange' prints edits.php
check 'a document as it is' prints asks.php "$room/site.json"
if is_there "${CC:-cc}"; then
    check 'another version is refused' says_over 0 $((version + 100)) 'the library is '
    check 'memory runs out' says_over 5 "$version" 'refused 26: out of memory'
else
    lacks 'another version and memory that runs out' 'C compiler'
fi
if is_there curl; then
    check 'a server that preloads the package' serves_by_preload
    check 'a server that preloads nothing' serves_nothing_else
    check 'a server that preloads the declarations too' serves_by_both
else
    lacks 'servers' curl
fi
if is_there composer; then
    check 'Composer installs it' composed
    check 'the page of its README' shows_its_page
else
    lacks 'Composer installs it' composer
fi
end
