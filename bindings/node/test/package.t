#!/usr/bin/env bash
# Runs the tests of the package for npm by Node's own runner, with worker threads and web servers, and
# shows each by its name. bindings/browser/tests/npm.sh says what it takes and needs.
cd "$(dirname "$0")/../../.." || exit 1
. tests/lib/tap.sh
. bindings/browser/tests/npm.sh

# (the folder is where Debian installs packages of Node)
by_node() {
    (cd "$app" && NODE_PATH=${NODE_PATH:-/usr/share/nodejs} \
        node --expose-gc --test --test-reporter=tap ./*.test.js) > "$room/tests" 2>&1
}

said_of() { # a line that says that something failed: what follows it, up to the end of its block
    awk -v line="$1" '$0 == line { on = 1 } on { print } on && /^ *\.\.\.$/ { exit }' "$room/tests"
}

# What Node's runner says of each test. (It has an entry for a file too where the file fails, and
# older ones for each file.)
each_test() {
    local line name why is_failed=
    by_node || is_failed=yes
    while IFS= read -r line; do
        [[ $line =~ ^\ *(not\ )?ok\ [0-9]+\ -\ (.*)$ ]] || continue
        name=${BASH_REMATCH[2]//\\#/#}
        why=
        if [[ $name =~ ^(.*)\ #\ SKIP\ ?(.*)$ ]]; then
            name=${BASH_REMATCH[1]}
            why=${BASH_REMATCH[2]:-not said}
        fi
        if [[ $line =~ ^\ *not\ ok ]]; then
            fail "$name" "$(said_of "$line")"
            is_failed=
        elif [ -n "$why" ]; then
            skip "$name" "$why"
        elif [[ $name != *.test.js ]]; then
            pass "$name"
        fi
    done < "$room/tests"
    if [ -n "$is_failed" ]; then fail 'its tests' "$(tail -n 60 "$room/tests")"; fi
}

is_installed
cp bindings/node/test/*.js "$app"
each_test
end
