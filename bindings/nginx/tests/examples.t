#!/usr/bin/env bash
# Serves the example of the module for nginx, nginx.conf, and those of its README, as they are there
# but for the port and the folder. server.sh says what it takes and needs.
# shellcheck disable=SC1091,SC2015,SC2016,SC2034,SC2154,SC2317
cd "$(dirname "$0")/../../.." || exit 1
. tests/lib/tap.sh
. bindings/nginx/tests/server.sh

# The example as it is, but for its port and its folder.
in_example() { # the answer's body and language, the path, then words for curl
    local wanted=$1
    shift
    curl -sS -D "$room/headers" "http://127.0.0.1:$port$1" "${@:2}" > "$room/body"
    tr -d '\r' < "$room/headers" > "$room/lines"
    if ! grep -qx 'Vary: Accept-Language' "$room/lines"; then return 1; fi
    [ "$(cat "$room/body") $(sed -n 's/^Content-Language: //p' "$room/lines")" = "$wanted" ]
}

the_example() {
    local lang
    for lang in en fr de-CH; do
        mkdir -p "$room/html/$lang"
        echo "page-$lang" > "$room/html/$lang/page.html"
    done
    {
        echo 'pid nginx.pid;'
        sed -e "s/^http {/&\n$(tr '\n' ' ' <<< "$temporary" | sed 's/;/; access_log off;/')/" \
            -e 's/127.0.0.1:8080/127.0.0.1:PORT/' bindings/nginx/nginx.conf
    } > "$room/example.conf"
    started "$room/example.conf" || return 1
    in_example 'page-fr fr' /page -H 'Accept-Language: fr-CA, en;q=0.5' || return 1
    in_example 'page-de-CH de-CH' /page.html -H 'Accept-Language: de-ch, fr;q=0.5' || return 1
    in_example 'page-en en' /page || return 1
    in_example 'page-en en' /page -H 'Accept-Language: *;q=0' || return 1
    in_example 'page-fr fr' /page -H 'Accept-Language: en_US, fr' || return 1
    # (a page that is not found has no language, and varies too)
    curl -sS -o "$room/body" -D - "http://127.0.0.1:$port/none" | tr -d '\r' > "$room/lines"
    grep -q ' 404 ' "$room/lines" && grep -qx 'Vary: Accept-Language' "$room/lines" &&
        ! grep -q Content-Language "$room/lines" && stopped
}

# The maps of the README as they are, but for the port.
chosen() {
    local lang
    sed -n '/^## A choice before the header/,/^## What it costs/p' bindings/nginx/README.md |
        sed -n '/^```nginx/,/^```$/{//!p}' |
        sed 's/^server {/&\n    listen 127.0.0.1:PORT;/' > "$room/choice"
    { echo 'silkwaram_tags en fr de-CH; silkwaram_default en;'; cat "$room/choice"; } |
        configured "$room/choice.conf"
    for lang in en fr de-CH; do echo "page-$lang" > "$room/html/$lang/page"; done
    started "$room/choice.conf" || return 1
    shows fr '?lang=fr' 'de-CH' 'lang=de-CH'
    shows de-CH '?lang=DE-ch' 'fr' ''
    shows de-CH '' 'fr' 'a=1; lang=de-CH; b=2'
    shows de-CH '?lang=' 'fr' 'lang=de-CH'
    shows fr '' 'fr' ''
    shows fr '?lang=ja' 'fr' 'lang=../../..'
    shows fr '?lang=../fr' 'fr' ''
    shows fr '?lang=en%2f..%2ffr' 'fr' ''
    shows fr '?language=de-CH' 'fr' 'Lang2=de-CH'
    shows en '' 'ja' ''
    shows en '?lang=ja' '*;q=0' ''
    stopped
}

shows() { # a language, then what a reader sends: a query, a header and a cookie
    local got
    got=$(curl -sS --path-as-is -D "$room/headers" -H "Accept-Language: $3" -H "Cookie: $4" \
        "http://127.0.0.1:$port/page$2")
    asked=$((asked + 1))
    tr -d '\r' < "$room/headers" > "$room/lines"
    [ "$got" = "page-$1" ] && grep -qx "Content-Language: $1" "$room/lines" &&
        grep -qx 'Vary: Accept-Language, Cookie' "$room/lines" && return
    wrong=$((wrong + 1))
    echo "wanted $1, not $got, of ${*:2}"
}

# The configuration of the README as it is, but for the port, and its line of a page.
labels_of_readme() {
    sed -n '/^## Labels/,/^## /p' bindings/nginx/README.md > "$room/labels.md"
    sed -n '/^```nginx/,/^```$/{//!p}' "$room/labels.md" |
        sed 's/^server {/&\n    listen 127.0.0.1:PORT;/' | configured "$room/labelled.conf"
    mkdir -p "$room/html"
    grep -o '<title>.*</title>' "$room/labels.md" > "$room/html/page.html"
    echo '{"title":{"en":"<b>","fr":"\"L'"'"'été\" & <i>"}}' | site > "$room/site.json"
    started "$room/labelled.conf" || return 1
    answers '<title>&lt;b&gt;</title>' /page.html
    answers "<title>&quot;L'été&quot; &amp; &lt;i&gt;</title>" /page.html -H 'Accept-Language: fr'
    stopped
}

check 'the module is there' has_module
[ "$failed" -eq 0 ] || end
check 'the example' the_example
check 'a choice before the header' tallied chosen
if [ -x "$lexicat" ]; then
    check 'labels in a page' tallied labels_of_readme
else
    lacks 'labels in a page' "${lexicat#"$PWD/"}"
fi
end
