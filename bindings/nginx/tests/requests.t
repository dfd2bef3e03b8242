#!/usr/bin/env bash
# Asks a server of its own, with the module for nginx, by curl: rows whose answers the README of the
# module and RFC 4647 give, 10,000 requests beside `lexicat pick`, header lines near the limits, and
# fields that come again. server.sh says what it takes and needs.
#
# NGINX_REQUESTS says how many requests are compared. Their fields are made of SEED.
# shellcheck disable=SC1091,SC2015,SC2016,SC2034,SC2154,SC2317
cd "$(dirname "$0")/../../.." || exit 1
. tests/lib/tap.sh
. bindings/nginx/tests/server.sh

needs "$lexicat"

rows() {
    local where
    gets fr /strict 'fr-CA, en;q=0.5'
    gets de-CH /strict 'de-CH-1996, en;q=0.9'
    gets zh-Hant /strict 'zh-hant-CN-x-private1-private2'
    gets zh-Hant /strict 'zh-Hant-TW;q=0.4, ja'
    gets fr /strict 'en;q=0.5, fr'
    gets fr /strict 'FR'
    # (the default, as it is among the tags)
    gets en /strict 'ja'
    gets en /strict '*'
    gets en /strict
    gets fr /default-fr 'ja'
    gets fr /default-fr
    answers en /strict -H 'Accept-Language;'
    # (strictly a weight of 0 bars the default, and "*" no match of lookup)
    gets '' /strict '*;q=0'
    gets '' /strict 'ja, en;q=0'
    gets en /strict 'en-GB, *;q=0'
    gets '' /lenient '*;q=0'
    gets '' /wide 'en;q=0'
    # (else such a reader gets the default nevertheless, and no other language that it excludes)
    for where in usual always; do
        gets en "/$where" '*;q=0'
        gets en "/$where" 'ja, en;q=0'
        gets en "/$where" 'en;q=0, fr;q=0, de;q=0'
        gets fr "/$where" 'en;q=0, fr;q=0.1'
        gets en "/$where" 'ja'
        gets en "/$where"
    done
    gets en /usual 'en;q=0, en_US'
    gets fr /default-fr 'ja, fr;q=0'
    for where in /no-default /no-default/strict; do
        gets '' "$where" 'ja'
        gets '' "$where" '*;q=0'
        gets '' "$where"
        gets fr "$where" 'fr'
    done
    # (several lines are one field, in their order, whatever the case of their name)
    gets fr /strict 'ja' 'fr'
    gets fr /strict 'fr' 'de-CH'
    gets fr /strict 'en;q=0.5' 'ja' 'fr;q=0.7' 'de-CH;q=0.6'
    answers fr /strict -H 'Accept-Language;' -H 'accept-language: fr'
    answers fr /strict -H 'ACCEPT-LANGUAGE: fr' -H 'Accept-Language;'
    answers en /strict -H 'Accept-Language-X: fr' -H 'Accept-Languag: fr' -H 'X-Accept-Language: fr'
    # (malformed: strictly as without the header, leniently what is left of it)
    gets en /strict 'fr, en_US'
    gets fr /lenient 'fr, en_US'
    gets en /strict 'fr;q=2'
    gets en /lenient 'fr;q=2'
    gets de-CH /lenient 'fr;q=2, de-CH'
    gets fr /usual 'fr, en_US'
    gets en /usual 'fr;q=2'
    gets en /always 'fr, en_US'
    gets fr /default-fr 'de-CH, en_US'
    gets '' /no-default/strict 'de-CH, en_US'
    gets de-CH /no-default 'de-CH, en_US'
    gets en /strict 'fr' 'en_US'
    gets fr /lenient 'en_US' 'fr'
    gets en /strict 'fr;q=0.5;q=1, de-CH'
    gets en /strict $'fr\xc3\xa9'
    # (a language finds its regions, before the next one of the field, unless that is switched off)
    gets en /strict 'de'
    gets en /lenient 'de'
    gets en /always 'de'
    gets de-CH /usual 'de'
    gets de-CH /usual 'de, en_US'
    gets de-CH /no-default 'de'
    gets '' /no-default/strict 'de'
    gets de-CH /wide 'de'
    gets de-CH /wide 'de, fr;q=0.5'
    gets zh-Hant /wide 'zh;q=0.3, ja'
    gets fr /wide 'fr, de;q=0.5'
    gets en /wide 'de, de-CH;q=0'
    gets en /wide '*'
    gets en /wide 'de, en_US'
    # (each location by its own directives, and by those that it inherits)
    gets '' /strict/in '*;q=0'
    gets en /strict/in 'fr, en_US'
    gets en /strict/in 'de'
    gets en /strict/not '*;q=0'
    gets fr /strict/not 'fr, en_US'
    gets de-CH /strict/not 'de'
    gets JA /ja 'ja-JP'
    gets en /ja 'fr'
    gets '[fr]' /mapped 'fr'
    gets '[en]' /mapped '*;q=0'
    gets '[]' /mapped/strict '*;q=0'
    gets 'fr JA [JA]' /moved 'fr'
    gets JA /error 'ja, fr;q=0.5'
    answers nb / -H 'Host: other' -H 'Accept-Language: en, fr'
    answers da / -H 'Host: other' -H 'Accept-Language: da, fr'
    answers '[]' / -H 'Host: none' -H 'Accept-Language: ja'
}

# Without an offer all tags are chosen from; with one those of them that it has, in its location.
offers() {
    local where
    gets x-note /private 'x-note, en;q=0.5'
    gets en /offered/private 'x-note, en;q=0.5'
    for where in /offered /offered/in; do
        gets fr "$where" 'en'
        gets fr "$where" 'en, zh-Hant'
        gets de-CH "$where" 'en, zh-Hant;q=0.8, de-CH;q=0.5'
        gets de-CH "$where" 'de'
        gets de-CH "$where" 'fr;q=0, de'
        gets fr "$where" '*;q=0'
        gets fr "$where"
    done
    gets en /offered/all 'en'
    gets zh-Hant /offered/all 'zh, fr;q=0.5'
    gets fr /offered/all 'ja'
    gets en /offered/but 'fr, en;q=0.5'
    gets zh-Hant /offered/but 'fr, zh-Hant;q=0.5'
    gets fr /strict 'fr, zh-Hant;q=0.5'
    # (other tags by the offer of the level above)
    gets FR-ca /offered/tags 'fr'
    gets FR-ca /offered/tags 'en, fr-CA;q=0.1'
    gets '' /offered/tags 'en, ja;q=0.5'
    gets '' /offered/none 'ja'
    gets '' /offered/none
    # (a default that is not offered is no default)
    gets '' /offered-no-default 'en'
    gets '' /offered-no-default 'ja'
    gets '' /offered-no-default '*;q=0'
    gets '' /offered-no-default
    gets fr /offered-no-default 'en, fr;q=0.5'
}

# A language finds the next one by the table of its location, before its regions.
fallbacks() {
    local where
    for where in /next /next/in; do
        gets fr "$where" 'de'
        gets fr "$where" 'de-AT, en;q=0.5'
        gets de-CH "$where" 'ja, en;q=0.5'
        gets de-CH "$where" 'de-CH'
        gets zh-Hant "$where" 'zh-TW, en;q=0.5'
        gets en "$where" 'da'
    done
    gets de-CH /next/none 'de'
    gets en /next/none 'ja'
    gets fr /next/offered 'de'
    gets fr /next/offered 'ja, zh, fr;q=0.5'
    gets de-CH /usual 'de'
}

# The offer of `http` is that of its servers and locations, those of the same tags and of others.
offers_of_http() {
    configured "$room/offered.conf" << 'END'
silkwaram_tags en fr x-note;
silkwaram_offer "fr, en";
silkwaram_default fr;
server {
    listen 127.0.0.1:PORT;
    location / { return 200 "$silkwaram_lang
"; }
    location /all { silkwaram_offer ""; return 200 "$silkwaram_lang
"; }
    location /private { silkwaram_offer x; return 200 "$silkwaram_lang
"; }
}
server {
    listen 127.0.0.1:PORT;
    server_name other;
    silkwaram_tags da en-GB x-note;
    silkwaram_default en-GB;
    return 200 "$silkwaram_lang
";
}
END
    started "$room/offered.conf" || return 1
    gets en / 'x-note, en;q=0.5'
    gets fr / 'x-note'
    gets fr / '*;q=0'
    gets x-note /all 'x-note, en;q=0.5'
    gets x-note /private 'x-note, en'
    gets '' /private 'en'
    answers en-GB / -H 'Host: other' -H 'Accept-Language: da, x-note'
    answers en-GB / -H 'Host: other' -H 'Accept-Language: en'
    stopped
}

has_header() { # an answer's header, if there is a language, and none where there is none
    curl -sS -D - -o "$room/body" -H 'Accept-Language: fr' "http://127.0.0.1:$port/header" |
        tr -d '\r' | grep -qx 'Content-Language: fr' || return 1
    ! curl -sS -D - -o "$room/body" -H 'Accept-Language: *;q=0' "http://127.0.0.1:$port/header" |
        grep -i 'content-language'
}

limits() { # a field has at most 65,535 bytes, and empty elements are skipped
    local lines=() n
    field_file '' 65533 fr whole
    answers fr /strict -H "@$room/field-whole"
    field_file '' 65534 fr over
    answers en /strict -H "@$room/field-over"
    answers en /lenient -H "@$room/field-over"
    field_file '' 32765 fr half
    field_file de-CH 32762 '' rest
    answers de-CH /strict -H "@$room/field-rest" -H "@$room/field-half"
    field_file de-CH 32763 '' more
    answers en /strict -H "@$room/field-more" -H "@$room/field-half"
    for ((n = 0; n < 90; n++)); do lines+=(ja); done
    gets fr /strict "${lines[@]}" fr
    gets fr /strict fr "${lines[@]}"
}

# A worker keeps the answers to fields of up to 128 bytes, by the field and the location.
kept() {
    local n last where
    for n in 123 124 125 126 127 128; do
        for last in fr en fr; do
            field_file '' "$n" "$last" kept
            for where in strict lenient usual strict; do
                answers "$last" "/$where" -H "@$room/field-kept"
            done
        done
    done
    for n in 1 2 3; do
        gets en /strict 'de, de-CH;q=0'
        gets en /wide 'de, de-CH;q=0'
        gets fr /wide 'de;q=0, fr'
        gets fr /strict 'de;q=0, fr'
        gets en /strict 'fr, en_US'
        gets fr /lenient 'fr, en_US'
        gets JA /ja 'ja, fr;q=0.5'
        gets fr /strict 'ja, fr;q=0.5'
        for where in usual always; do
            gets '' /strict '*;q=0'
            gets en "/$where" '*;q=0'
            gets '' /strict 'ja, en;q=0'
            gets en "/$where" 'ja, en;q=0'
        done
        gets en /usual 'en, de;q=0.5'
        gets de-CH /offered 'en, de;q=0.5'
        gets en /offered/all 'en, de;q=0.5'
        gets '' /offered-no-default 'en, de;q=0.5'
        gets en /strict
        gets fr /default-fr
        gets 'fr JA [JA]' /moved 'fr'
    done
}

# logged LINE: that is the last line of the log, which is written after the answer.
logged() {
    until_so ends_with "$1" && return 0
    echo "the log ends with $(tail -n 1 "$room/logged")"
    return 1
}

ends_with() { [ "$(tail -n 1 "$room/logged")" = "$1" ]; }

# The variable is evaluated for the log too, also where a request is no HTTP; no language is a
# hyphen.
survives() {
    gets '' /strict '*;q=0'
    logged - || return 1
    exec 3<> "/dev/tcp/127.0.0.1/$port" && printf 'nonsense\r\n\r\n' >&3 &&
        cat <&3 > "$room/nonsense"
    exec 3>&-
    logged en || return 1
    gets fr /strict fr
    logged fr
}

compared() { # NGINX_REQUESTS requests, of some 200 fields, in each location of beside_pick.py
    python3 "$own/beside_pick.py" "$lexicat" "http://127.0.0.1:$port" "${NGINX_REQUESTS:-10000}" \
        "$room"
}

holds() { # the log has no line of an error
    grep -vE '\[(info|notice|warn)\]' "$room/error.log" && return 1
    return 0
}

says_seed
check 'the module is there' has_module
[ "$failed" -eq 0 ] || end
configured "$room/first.conf" < "$own/first.conf"
check 'the server starts' started "$room/first.conf"
[ "$failed" -eq 0 ] || end
check 'rows' tallied rows
check 'rows of what is offered' tallied offers
check 'rows of fallbacks' tallied fallbacks
check 'the header Content-Language' has_header
check 'many and long header lines' tallied limits
check 'fields that come again' tallied kept
check 'the log, and a request that is no HTTP' tallied survives
check 'requests beside lexicat pick' compared
check 'the error log has no error' holds
check 'the server stops' stopped
check 'what is offered by the whole configuration' tallied offers_of_http
end
