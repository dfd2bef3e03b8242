# shellcheck shell=bash disable=SC2034,SC2154
# Of the tests of the module for browsers: the engines, and what they are given. A test sources it
# after tests/lib/tap.sh, and is left out where something is not there.
#
# It takes build/browser, which `make browser` builds, as it is; and, for what is compared with
# it, build/lexicat, or the command that LEXICAT names. Needed: python3; and Node or Chromium
# (CHROMIUM names it), each of which is skipped where it is not there.
own=bindings/browser/tests
lexicat=$(realpath -m "${LEXICAT:-build/lexicat}")
needs python3 build/browser/silkwaram.wasm

browser_program() { # the name of Chromium
    local name
    if [ -n "${CHROMIUM:-}" ]; then echo "$CHROMIUM"; return; fi
    for name in chromium chromium-browser google-chrome; do
        if is_there "$name"; then echo "$name"; return; fi
    done
    return 1
}

# What a page and Node are given.
site=$room/served
mkdir "$site"
cp build/browser/* "$own"/*.mjs "$site"
echo '<!doctype html><title>empty</title>' > "$site/empty.html"

told() { # a file, and the script that writes it with the answers of the command
    local file=$1
    shift
    python3 "$@" > "$site/$file"
}

in_engines() { # what is tried, and a script with its function and files
    local what=$1 version
    shift
    if is_there node; then
        check "$what in Node $(node --version)" node "$own/pages.mjs" "$site" "$@"
    else
        lacks "$what in Node" node
    fi
    if browser_program > /dev/null; then
        version=$("$(browser_program)" --version 2> /dev/null | grep -oE 'Chrom[a-z]+ [0-9]+')
        check "$what in ${version:-Chromium}" python3 "$own/pages.py" "$site" "$@"
    else
        lacks "$what in Chromium" Chromium
    fi
}
