#!/usr/bin/env bash
# Asks a server of its own, with the module for nginx, for labels of a site: rows, and beside
# `lexicat lookup`. server.sh says what it takes and needs.
#
# NGINX_FIELDS says by how many fields they are asked. The fields are made of SEED.
# shellcheck disable=SC1091,SC2015,SC2016,SC2034,SC2154,SC2317
cd "$(dirname "$0")/../../.." || exit 1
. tests/lib/tap.sh
. bindings/nginx/tests/server.sh

needs "$lexicat"

label_rows() {
    gets Catalogue /strict 'en-GB, fr;q=0.5'
    gets Verzeichnis /strict 'fr;q=0.5, de-CH-1996'
    gets Catalogue /strict 'fr'
    # (where nothing else is found, the default of the variable, or that of the level)
    gets Catalogue /strict 'ja'
    gets Catalogue /strict
    gets Verzeichnis /strict/de 'ja'
    gets Verzeichnis /strict/de
    gets '' /strict/none 'ja'
    gets '' /strict/none
    gets Catalogue /strict/none 'fr'
    gets Verzeichnis /level-de 'ja'
    gets Verzeichnis /level-de
    gets Catalogue /level-de 'fr'
    # (strictly no reader gets a default that it excludes)
    gets '' /strict 'ja, *;q=0'
    gets '' /strict/de 'de;q=0'
    gets '' /lenient '*;q=0, en_US'
    gets '' /wide 'en;q=0, ja'
    gets Catalogue /usual 'ja, *;q=0'
    gets Verzeichnis /usual-de 'de;q=0'
    gets Verzeichnis /level-de '*;q=0, en_US'
    gets '' /usual-none '*;q=0'
    gets '' /usual-none
    # (several lines are one field)
    gets Verzeichnis /strict 'ja' 'de-CH'
    gets Verzeichnis /strict 'fr;q=0.5' 'ja' 'de-CH;q=0.7'
    # (malformed: strictly as without the header, leniently what is left of it)
    gets Catalogue /strict 'de-CH, en_US'
    gets Verzeichnis /strict/de 'fr, en_US'
    gets Verzeichnis /lenient 'de-CH, en_US'
    gets Verzeichnis /usual 'de-CH, en_US'
    # (a language finds its regions, unless that is switched off)
    gets Catalogue /strict 'de'
    gets Catalogue /lenient 'de'
    gets Verzeichnis /wide 'de'
    gets Verzeichnis /usual 'de'
    gets Verzeichnis /usual-none 'de, en_US'
    # (notes of translators are shown where they are offered; no default that is not)
    gets Catalogue /noted 'x-note, en;q=0.5'
    gets Catalogue /noted 'x-note'
    gets 'ask Anna' /noted/all 'x-note, en;q=0.5'
    gets 'ask Anna' /noted/all/inner 'x-note, en;q=0.5'
    gets Catalogue /noted/all/but 'x-note, en;q=0.5'
    gets '' /noted/french 'en'
    # (one offer for languages and labels)
    gets 'x-note ask Anna' /noted/tags 'en'
    gets 'fr ask Anna' /noted/tags 'fr, x-note;q=0.5'
    # (each level by its own site, and a message that a site lacks is empty)
    gets Titre /other 'fr'
    gets '' /other 'ja'
    gets '' /lacking 'en'
    gets '[Titre]' /moved 'fr'
    answers '[]' / -H 'Host: none' -H 'Accept-Language: ja'
    answers '[Verzeichnis]' /de -H 'Host: none' -H 'Accept-Language: ja'
    answers '[Verzeichnis]' /de -H 'Host: none' -H 'Accept-Language: *;q=0'
}

beside_lookup() {
    python3 "$own/beside_lookup.py" "$lexicat" "127.0.0.1:$port" "$room/hostile.json" \
        "${NGINX_FIELDS:-150}"
}

# What a file holds is seen at a reload, whatever becomes of it meanwhile; a file that is refused
# leaves the state.
labels_anew() {
    local text
    gets Catalogue /strict en
    : > "$room/site.json"
    for text in 1 2 3 4 5 6; do gets Catalogue /strict en; done
    ! server -c "$room/nginx.conf" -s reload > "$room/test" 2>&1 &&
        grep -qF '"silkwaram_labels": refused 19' "$room/test" || return 1
    gets Catalogue /strict en
    for text in second third; do
        echo "{\"title\":{\"en\":\"$text\"}}" | site 2 > "$room/next.json"
        mv "$room/next.json" "$room/site.json"
        server -c "$room/nginx.conf" -s reload || return 1
        until_so is_answered "$text" /strict || return 1
    done
}

is_answered() { # by a text, and the path
    [ "$(curl -sS -H 'Accept-Language: en' "http://127.0.0.1:$port$2")" = "$1" ]
}

# (a header that holds a zero is none, and refused by nginx itself)
zeros() {
    exec 3<> "/dev/tcp/127.0.0.1/$port" &&
        printf 'GET /strict HTTP/1.1\r\nHost: a\r\nAccept-Language: f\0r\r\n\r\n' >&3 &&
        head -n 1 <&3 > "$room/zero"
    exec 3>&-
    grep -q '^HTTP/1.1 400 ' "$room/zero" || return 1
    gets Catalogue /strict en
}

says_seed
check 'the module is there' has_module
[ "$failed" -eq 0 ] || end
configured "$room/labels.conf" < "$own/labels.conf"
check 'sites' has_sites
check 'the server of labels starts' started "$room/labels.conf"
[ "$failed" -eq 0 ] || end
check 'labels' tallied label_rows
check 'labels beside lexicat lookup' beside_lookup
check 'a header with a zero' tallied zeros
check 'labels are read anew' tallied labels_anew
check 'the server of labels stops' stopped
end
