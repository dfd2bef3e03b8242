#!/usr/bin/env bash
# Installs the wheel as it is distributed, with the libraries and the page inside, by pip in an empty
# environment without a network, and has two offices work for a day with nothing but what it brings:
# the command, PO files, a check, JSON, and the editor's server between them.
#
# Takes build/lib, as `make library` builds it, and build/browser, as `make browser` does. Needed:
# Python with venv and pip, which may fetch nothing, readelf, and the Rattle kit.
cd "$(dirname "$0")/../../.." || exit 1
. tests/lib/tap.sh
version=$(sed -nE 's/^__version__ = "(.*)"$/\1/p' bindings/python/src/silkwaram/__init__.py)
needs build/lib/libsilkwaram.so build/lib/libsilkwaram-command.so build/browser/silkwaram.wasm \
    python3 readelf "${RT:-rt}"
python3 -m venv "$room/venv" > "$room/made" 2>&1 || skip_all 'there is no venv of Python'
mkdir "$room/wheel" "$room/day"
top=$PWD

# alone COMMAND..: runs it in the folder of the day, with nothing of this machine but the environment.
alone() {
    (cd "$room/day" && env -i PATH="$room/venv/bin:/usr/bin:/bin" HOME="$room/day" LC_ALL=C.UTF-8 "$@")
}

is_installed() {
    tools/third-party > "$room/licences" && PYTHONPATH=bindings/python python3 -B -c '
import sys, in_tree_backend
places = dict(zip(("library", "command", "browser", "licences"), sys.argv[2:]))
in_tree_backend.build_wheel(sys.argv[1], places)' "$room/wheel" \
        "$top/build/lib/libsilkwaram.so" "$top/build/lib/libsilkwaram-command.so" \
        "$top/build/browser" "$room/licences" > /dev/null &&
        PIP_NO_INDEX=1 "$room/venv/bin/pip" install --quiet --disable-pip-version-check \
            "$room"/wheel/*.whl
}

has_each_program() {
    local name
    for name in lexicat lexicat-file lexicat-edit lexicat-po lexicat-convert lexicat-check \
        lexicat-exchange; do
        alone "$name" --version | grep -x "$name $version" || return 1
        alone "$name" --help > /dev/null || return 1
    done
}

# (clap and serde_json are among what is linked into it)
has_licences() {
    local found it
    found=$(find "$room/venv" -path '*silkwaram*.dist-info/licenses/*' | sed 's|.*/||' | sort)
    [ "$found" = "$(printf '%s\n' LICENSE-{APACHE,MIT,UNICODE} THIRD-PARTY)" ] || return 1
    for it in clap serde_json memchr; do
        grep -qE "^---- (.*, )?$it(,|$)" "$room/licences" || return 1
    done
}

has_table() {
    cmp data/cldr.fallbacks "$room"/venv/lib/python3*/site-packages/silkwaram/cldr.fallbacks
}

# Paris writes, Tokyo translates by a PO file; each exchanges with the server of the editor.
has_a_day() {
    local server status
    alone python -m silkwaram.editor --port 0 server.json > "$room/address" &
    server=$!
    until [ -s "$room/address" ]; do
        kill -0 "$server" || return 1
        sleep 0.1
    done
    day_by "$(cat "$room/address")"
    status=$?
    pkill -P "$server"
    wait "$server" 2> /dev/null
    return "$status"
}

day_by() { # the address of the server
    local address=$1 site
    for site in paris tokyo; do
        alone lexicat-file "$site.json" new --site "$site" || return 1
    done
    echo '{"hello": "Hello {name}", "bye": "Goodbye"}' > "$room/day/en.json"
    alone sh -c 'lexicat-convert json in --lang en en.json | lexicat-file paris.json import' &&
        alone lexicat-exchange "$address" paris.json | grep -x 'sent 2, received 0' &&
        alone lexicat-exchange "$address" tokyo.json | grep -x 'sent 0, received 2' || return 1
    alone lexicat-po out --lang de --source en tokyo.json > "$room/day/de.po" || return 1
    sed -i '/^msgid "Goodbye"$/{n;s/""/"Tschüss"/};/^msgid "Hello {name}"$/{n;s/""/"Hallo {nom}"/}' \
        "$room/day/de.po"
    alone sh -c 'lexicat-po in --lang de --source en tokyo.json de.po | lexicat-file tokyo.json update' ||
        return 1
    alone lexicat-check --source en tokyo.json | grep -x '"hello" de: lacks {name}' || return 1
    # Paris mends the translation, while Tokyo does so too, earlier.
    alone lexicat-exchange "$address" tokyo.json && alone lexicat-exchange "$address" paris.json &&
        alone lexicat-file tokyo.json put --id hello --lang de 'Hallo, {name}!' &&
        alone lexicat-file paris.json put --id hello --lang de 'Hallo {name}' &&
        alone lexicat-exchange "$address" paris.json > "$room/said" || return 1
    alone lexicat-exchange "$address" tokyo.json 2> "$room/told" || return 1
    grep '1 text of this site was overridden by later edits' "$room/told" || return 1
    alone lexicat-file tokyo.json conflicts | grep -F 'yours:  "Hallo, {name}!"' &&
        alone lexicat-file tokyo.json conflicts --mine hello de || return 1
    alone lexicat-exchange "$address" tokyo.json && alone lexicat-exchange "$address" paris.json &&
        alone lexicat lookup --id hello de < "$room/day/paris.json" |
        grep -xF 'matched de ["Hallo, {name}!"]'
}

check 'the wheel is installed without a network' is_installed
check 'it has the licences of what is linked into it' has_licences
check 'it has the table of fallbacks' has_table
check 'each program is there' has_each_program
check 'two offices work for a day' has_a_day
end
