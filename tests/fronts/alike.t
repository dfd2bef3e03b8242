#!/usr/bin/env bash
# Asks every front end 500 headers over one site, by its defaults alone, and once more by a table of
# fallbacks: the middleware for WSGI, ASGI, Django and Node, the package for PHP, the module for
# nginx, and the example in C. Each has to answer as `lexicat` does by the rules that asked.py
# states. The headers are made of SEED.
#
# It takes build/lib and build/browser, which `make library` and `make browser` build, and
# build/lexicat, or the command that LEXICAT names. A front end without its tools is skipped.
cd "$(dirname "$0")/../.." || exit 1
. tests/lib/tap.sh
own_fronts=$PWD/tests/fronts
lexicat=$(realpath -m "${LEXICAT:-build/lexicat}")
export SILKWARAM_LIBRARY=${SILKWARAM_LIBRARY:-$PWD/build/lib/libsilkwaram.so}
archive=${SILKWARAM_LIB:-$PWD/build/lib}/libsilkwaram.a
export PYTHONPATH=$PWD/bindings/python/src
needs "$lexicat" python3

# What is asked, without a table and by one.
rounds=("$room/defaults" "$room/table")
table='zh-TW=zh-Hant, da=nb, nb=fr-CA, es-419=pt-BR, no=nb'

is_asked() {
    mkdir "${rounds[@]}" && python3 "$own_fronts/asked.py" "$lexicat" "${rounds[0]}" &&
        python3 "$own_fronts/asked.py" "$lexicat" "${rounds[1]}" "$table"
}

is_alike() { # a front end, and the command that asks it what a folder has
    local name=$1 folder
    shift
    for folder in "${rounds[@]}"; do
        "$@" "$folder" > "$folder/$name.json" &&
            python3 "$own_fronts/asked.py" --compare "$folder" "$folder/$name.json" || return
    done
}

try_python() { # what is tried, the kind, and a module that it wants
    local python
    for python in python3 /usr/bin/python3; do
        if "$python" -c "import $3" 2> /dev/null; then
            check "$1" is_alike "$2" "$python" "$own_fronts/ask.py" "$2"
            return
        fi
    done
    lacks "$1" "$3 for python3"
}

of_node() { # the package, as the modules of a program find it
    mkdir -p "$room/app/node_modules"
    cp -r build/browser "$room/app/node_modules/silkwaram"
    cp "$own_fronts/in_node.mjs" "$room/app"
    is_alike node node "$room/app/in_node.mjs"
}

has_ffi() { is_there php && php -m | grep -qx FFI; }

of_c() {
    "${CC:-cc}" -std=c99 -Iinclude examples/front/label.c -o "$room/label" "$archive" &&
        is_alike c python3 "$own_fronts/ask.py" program "$room/label"
}

# (server.sh has a room of its own, which it removes with its servers)
of_nginx() (
    local folders=("${rounds[@]}") edits=(-e '/TABLE/d' -e "s/TABLE/$table/") at tags
    room=$(mktemp -d)
    # shellcheck disable=SC1091
    . bindings/nginx/tests/server.sh
    has_module || exit 1
    tags=$(python3 -c 'import json, sys; print(*json.load(open(sys.argv[1]))["tags"])' \
        "${folders[0]}/asked.json")
    cp "${folders[0]}/site.json" "$room"
    for at in 0 1; do
        rounds=("${folders[at]}")
        sed -e "s/TAGS/$tags/" "${edits[@]:2 * at:2}" "$own_fronts/nginx.conf" |
            configured "$room/alike.conf"
        started "$room/alike.conf" &&
            is_alike nginx python3 "$own_fronts/ask.py" http "127.0.0.1:$port" &&
            stopped || exit 1
    done
)

says_seed
check 'lexicat answers' is_asked
[ "$failed" -eq 0 ] || end
if [ -e "$SILKWARAM_LIBRARY" ]; then
    try_python 'WSGI' wsgi wsgiref
    try_python 'ASGI' asgi asyncio
    try_python 'Django' django django
else
    lacks 'WSGI, ASGI and Django' "$SILKWARAM_LIBRARY"
fi
if is_there node && [ -e build/browser/silkwaram.wasm ]; then
    check 'Node' of_node
else
    lacks 'Node' 'Node, or no build/browser'
fi
if has_ffi && [ -e "$SILKWARAM_LIBRARY" ]; then
    check 'PHP' is_alike php php -d ffi.enable=true "$own_fronts/in_php.php"
else
    lacks 'PHP' 'PHP with FFI, or no library'
fi
if is_there "${CC:-cc}" && [ -e "$archive" ]; then
    check 'the example in C' of_c
else
    lacks 'the example in C' 'C compiler, or no library'
fi
if PATH=$PATH:/usr/sbin is_there nginx && is_there make && [ -e "$archive" ] &&
    [ -e /usr/share/nginx/src/configure ]; then
    check 'nginx' of_nginx
else
    lacks 'nginx' 'nginx with its sources, or no library'
fi
end
