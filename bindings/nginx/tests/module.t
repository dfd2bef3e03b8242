#!/usr/bin/env bash
# Builds the module for nginx against Debian's nginx-dev: what hardens it, and that a folder with a
# blank in its name gives the same. server.sh says what it takes and needs; readelf and objdump are
# needed besides.
# shellcheck disable=SC1091,SC2015,SC2016,SC2034,SC2154,SC2317
cd "$(dirname "$0")/../../.." || exit 1
. tests/lib/tap.sh
. bindings/nginx/tests/server.sh

is_built() {
    SILKWARAM_LIB=$library bindings/nginx/build "$module" && echo
}

is_hardened() {
    tools/hardened "$module" ngx_http_silkwaram_lang_variable && echo
}

in_a_folder_with_a_blank() { # the same module
    local folder="$room/a folder"
    mkdir "$folder" "$folder/temporary"
    cp -r bindings/nginx include "$library" "$folder"
    TMPDIR=$folder/temporary SILKWARAM_INC=$folder/include \
        SILKWARAM_LIB=$folder/$(basename "$library") \
        "$folder/nginx/build" "$folder/module.so" || return 1
    cmp "$folder/module.so" "$module" && echo
}

check 'the module is built' is_built
[ "$failed" -eq 0 ] || end
if ! is_there readelf; then
    lacks 'what hardens the module' readelf
elif ! is_there objdump; then
    lacks 'what hardens the module' objdump
else
    check 'what hardens the module' is_hardened
fi
check 'the module is built in a folder with a blank' in_a_folder_with_a_blank
end
