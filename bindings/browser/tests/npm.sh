# shellcheck shell=bash disable=SC2034,SC2154
# Of the tests of the package for npm, silkwaram-VERSION.tgz: npm installs it offline in a bare
# folder, as somebody who has nothing else of the project. A test sources this after
# tests/lib/tap.sh, and is left out where something is not there.
#
# It takes the package that PACKAGE names, or packs build/browser (`make browser`); and, for what
# is compared with it, build/lexicat, or the command that LEXICAT names. Needed: npm, Node and
# python3; git where the package is packed. NODES names further programs of Node, each of which is
# asked too.
lexicat=$(realpath -m "${LEXICAT:-build/lexicat}")
pages=bindings/browser/tests
own=$PWD/$pages/npm
needs npm node python3
if [ -n "${PACKAGE:-}" ]; then
    package=$(realpath -m "$PACKAGE")
    needs "$package"
else
    package=$room/silkwaram.tgz
    needs build/browser/silkwaram.wasm git
fi

app=$room/app
mkdir "$app" "$room/cache"
cp "$own"/*.mjs bindings/node/test/*.mjs "$pages/answers.mjs" "$app"
installed=$app/node_modules/silkwaram
nodes=(node)
for node in ${NODES:-}; do nodes+=("$node"); done

installs() { # as npm does it by itself, with an empty cache and no network
    if [ -z "${PACKAGE:-}" ]; then tools/dist --npm build/browser "$package" || return 1; fi
    cp "$package" "$app/silkwaram-1.tgz"
    (cd "$app" && echo '{"private":true,"type":"module"}' > package.json &&
        npm install --offline --cache "$room/cache" ./silkwaram-1.tgz) &&
        [ "$(ls "$app/node_modules")" = silkwaram ]
}

is_installed() { # else nothing else can be tried
    check 'npm installs it offline' installs
    [ "$failed" -eq 0 ] || end
}

told() { # a file, and the script that writes it with the answers of the command
    local file=$1
    shift
    python3 "$@" > "$app/$file"
}

# The questions and hostile inputs, with the answers of the command. NPM_QUESTIONS says how many
# questions each call is asked (60). They are made of SEED.
is_asked() {
    says_seed
    check 'the command is asked' \
        told questions.json "$pages/questions.py" "$lexicat" "${NPM_QUESTIONS:-60}"
    check 'the command is asked what is hostile' told hostile.json "$own/hostile.py" "$lexicat"
}

# And edits. NPM_SITES says how many pairs of sites are edited (40).
is_edited() {
    check 'the command edits' told edits.json "$pages/edits.py" "$lexicat" "${NPM_SITES:-40}"
}
