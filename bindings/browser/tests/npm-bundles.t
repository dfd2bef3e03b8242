#!/usr/bin/env bash
# Makes bundles of programs that use the package for npm, for pages and for Node, and compares
# their answers with the command's; a bundle for pages wants nothing of Node, and answers in
# Chromium. npm.sh says what it takes and needs.
#
# Needed besides: esbuild and rollup (Debian's packages of these names), and Chromium (CHROMIUM
# names it), each of which is skipped where it is not there.
cd "$(dirname "$0")/../../.." || exit 1
. tests/lib/tap.sh
. bindings/browser/tests/npm.sh
needs "$lexicat"

# A program is bundled, and answers with the module beside the bundle.
bundled() { # the bundle, in a folder of its own, then the command that writes it
    local to=$app/${1%/*} bundle=./${1##*/}
    shift
    mkdir "$to"
    cp "$installed/silkwaram.wasm" "$to"
    (cd "$app" && "$@") || return 1
    cp "$app/ask.mjs" "$app/answers.mjs" "$app/hostile.mjs" "$app"/*.json "$to"
    (cd "$to" && node ask.mjs "$bundle" answers.mjs compare questions.json &&
        node ask.mjs "$bundle" hostile.mjs hostile hostile.json)
}

bundles_command() { # the call of the command, with its module beside the bundle
    local to=$app/called
    mkdir "$to"
    cp "$installed/lexicat.wasm" "$to"
    echo "export { command } from 'silkwaram/command';" > "$app/exported.mjs"
    (cd "$app" && esbuild exported.mjs --bundle --format=esm --outfile=called/bundle.mjs) &&
        wants_nothing "$to/bundle.mjs" &&
        (cd "$to" && node --input-type=module -e "
import { command } from './bundle.mjs';
console.log((await command(['pick', 'da, en', 'en', 'fr'])).output.trim());") | grep -x 'matched en'
}

in_page() { # a bundle by esbuild, in an empty page of a server that has nothing but it
    local site=$room/site
    mkdir "$site"
    cp "$installed/silkwaram.wasm" "$app/answers.mjs" "$app"/{questions,edits}.json "$site"
    echo '<!doctype html><title>empty</title>' > "$site/empty.html"
    (cd "$app" && esbuild paged.mjs --bundle --format=esm --outfile="$site/silkwaram.mjs") &&
        python3 "$pages/pages.py" "$site" answers.mjs compare questions.json &&
        python3 "$pages/pages.py" "$site" answers.mjs edit edits.json
}

# (what Node alone has may not be asked for by a bundle for pages)
wants_nothing() { ! grep -nE "from ?['\"]node:|import\(['\"]node:" "$1"; }

is_installed
is_asked
is_edited
[ "$failed" -eq 0 ] || end
if is_there esbuild; then
    check 'esbuild, for pages' bundled pages/bundle.mjs esbuild loaded.mjs --bundle --format=esm \
        --outfile=pages/bundle.mjs
    check 'that bundle wants nothing of Node' wants_nothing "$app/pages/bundle.mjs"
    if PYTHONPATH=tests/lib python3 -c 'import chromium as it, sys; sys.exit(not it.program())'
    then
        check 'that bundle in Chromium' in_page
    else
        lacks 'that bundle in Chromium' Chromium
    fi
    check 'esbuild, the call of the command for pages' bundles_command
    check 'esbuild, for Node' bundled node/bundle.mjs esbuild direct.mjs --bundle --format=esm \
        --platform=node --outfile=node/bundle.mjs
    check 'esbuild, for Node as CommonJS' bundled common/bundle.cjs esbuild direct.mjs --bundle \
        --platform=node --outfile=common/bundle.cjs
else
    for name in 'esbuild, for pages' 'that bundle wants nothing of Node' 'that bundle in Chromium' \
        'esbuild, the call of the command for pages' 'esbuild, for Node' \
        'esbuild, for Node as CommonJS'; do lacks "$name" esbuild; done
fi
if is_there rollup; then
    check 'rollup, for pages' bundled rolled/bundle.mjs rollup loaded.mjs --format es \
        --file rolled/bundle.mjs --plugin ./resolve.mjs
else
    lacks 'rollup, for pages' rollup
fi
end
