#!/usr/bin/env bash
# Tries tools/needs where it may install nothing: in a copy of it with a list of its own, on a PATH
# without apt-get, it has to print what is not there; and with an apt-get that fetches nothing it has
# to say so, and to leave the names for tools/gate. And sees that each line of packaging/needs.txt can
# be read. It installs nothing.
set -u
cd "$(dirname "$0")/../.." || exit 1
. tests/lib/tap.sh

each_line_is_read() {
    local package kind has rest count=0
    while read -r package kind has rest; do
        case $package in '#'* | '') continue ;; esac
        case $kind in build | test | bench) ;; *) echo "$package: $kind"; return 1 ;; esac
        [ -n "$has" ] && [ -z "$rest" ] || { echo "$package: $has $rest"; return 1; }
        count=$((count + 1))
    done < packaging/needs.txt
    echo "$count packages"
    [ "$count" -gt 0 ]
}
check 'each line of the list is read' each_line_is_read

copy=$room/copy
mkdir -p "$copy/tools" "$copy/packaging" "$room/bin"
cp tools/needs "$copy/tools"
for it in bash dirname mkdir rm tail id true env; do ln -s "$(command -v "$it")" "$room/bin"; done
cat > "$copy/packaging/needs.txt" <<'END'
# what is there, and what is not
bash-itself     build   bash
no-command      build   no-such-command
no-path         test    /no/such/path
no-module       test    python:no_such_module
a-path          test    /usr/bin/env
END

says() { # the kinds, and the line that has to be printed
    PATH=$room/bin "$copy/tools/needs" "${@:2}" > "$room/printed" || return 1
    cat "$room/printed"
    grep -qxF "$1" "$room/printed"
}
check 'it names what is not there' says 'needs: no-command no-path no-module'
check 'it names those of one kind' says 'needs: no-command' build
check 'it says where it may install nothing' says \
    'needs: these packages of Debian are not installed here: there is no apt-get, or no right to use it'
check 'it says where all is there' says 'needs: all packages are there' bench

leaves_names() { # with an apt-get, and a sudo where this is no root, that do nothing
    printf '#!/bin/sh\nexit 100\n' > "$room/bin/apt-get"
    printf '#!/bin/sh\n[ "$1" = -n ] && shift\nexec "$@"\n' > "$room/bin/sudo"
    chmod +x "$room/bin/apt-get" "$room/bin/sudo"
    says 'needs: could not be fetched: no-path no-module' test || return 1
    grep -qxF 'no-path no-module' "$copy/build/needs.lacking" || return 1
    says 'needs: all packages are there' bench && [ ! -e "$copy/build/needs.lacking" ]
}
check 'it leaves the names of those that could not be fetched' leaves_names
end
