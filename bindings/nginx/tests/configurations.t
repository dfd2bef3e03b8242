#!/usr/bin/env bash
# Has nginx, with the module, test configurations that are refused, or that it warns of; and files
# that are no site, or not as `lexicat` wrote it. server.sh says what it takes and needs.
# shellcheck disable=SC1091,SC2015,SC2016,SC2034,SC2154,SC2317
cd "$(dirname "$0")/../../.." || exit 1
. tests/lib/tap.sh
. bindings/nginx/tests/server.sh

refuses() { # what nginx says, then lines within `http`
    local wanted=$1
    shift
    printf '%s\n' "$@" | configured "$room/bad.conf"
    if server -t -c "$room/bad.conf" > "$room/test" 2>&1 ||
        ! grep -F '[emerg]' "$room/test" | grep -qF -- "$wanted"; then
        echo "wanted: $wanted"
        cat "$room/test"
        wrong=$((wrong + 1))
    fi
    asked=$((asked + 1))
}

warns() { # whether and what nginx says, then lines within `http`
    local count=$1 wanted=$2
    shift 2
    printf '%s\n' "$@" | configured "$room/bad.conf"
    if ! server -t -c "$room/bad.conf" > "$room/test" 2>&1 ||
        [ "$(grep -F '[warn]' "$room/test" | grep -cF -- "$wanted")" -ne "$count" ]; then
        echo "wanted, $count times: $wanted"
        cat "$room/test"
        wrong=$((wrong + 1))
    fi
    asked=$((asked + 1))
}

bad_configurations() {
    local long
    long=$(printf 'en-x%s' "$(printf -- '-aaaaaaa%.0s' {1..32})")
    refuses '"silkwaram_tags": refused 3: subtag at 0: "en_US" in' 'silkwaram_tags fr en_US;'
    refuses '"silkwaram_tags": refused 3: subtag at 3: "en-toolongsubtag" in' \
        'silkwaram_tags en-toolongsubtag;'
    refuses '"silkwaram_tags": refused 1: tag is empty in' 'silkwaram_tags en "";'
    refuses '"silkwaram_tags": refused 2: tag is over 255 bytes' "silkwaram_tags $long;"
    refuses '"silkwaram_tags": refused 4: tag is not well-formed: "x" in' 'silkwaram_tags x;'
    refuses '"silkwaram_tags": refused 3: subtag at 0: "en' 'silkwaram_tags "en\nfr";'
    refuses '"silkwaram_tags": refused 3: subtag at 0: "$lang" in' 'silkwaram_tags $lang;'
    refuses '"silkwaram_tags" has "EN" twice in' 'silkwaram_tags en fr EN;'
    refuses '"silkwaram_tags" directive is duplicate in' 'silkwaram_tags en;' 'silkwaram_tags fr;'
    refuses 'invalid number of arguments in "silkwaram_tags" directive' 'silkwaram_tags;'
    refuses '"silkwaram_default": refused 3: subtag at 0: "en_US" in' 'silkwaram_default en_US;'
    refuses '"silkwaram_offer": refused 9: field element at 4: "en, e n" in' \
        'silkwaram_offer "en, e n";'
    refuses '"silkwaram_offer" directive is duplicate in' 'silkwaram_offer en;' \
        'silkwaram_offer fr;'
    refuses '"silkwaram_fallbacks": refused 31: fallback at 7: "en=fr, EN=de" in' \
        'silkwaram_fallbacks "en=fr, EN=de";'
    refuses '"silkwaram_fallbacks": refused 31: fallback at 0: "no" in' \
        'server { location / { silkwaram_fallbacks no; } }'
    refuses '"silkwaram_fallbacks" directive is duplicate in' 'silkwaram_fallbacks no=nb;' \
        'silkwaram_fallbacks "";'
    refuses '"silkwaram_default" directive is duplicate in' 'silkwaram_default en;' \
        'silkwaram_default fr;'
    refuses 'invalid number of arguments in "silkwaram_default" directive' \
        'silkwaram_default en fr;'
    refuses '"silkwaram_lenient" directive is duplicate' 'silkwaram_lenient on;' \
        'silkwaram_lenient on;'
    refuses 'invalid value "yes" in "silkwaram_lenient" directive' 'silkwaram_lenient yes;'
    refuses '"silkwaram_strict" directive is duplicate' 'silkwaram_strict on;' \
        'silkwaram_strict off;'
    refuses 'invalid value "" in "silkwaram_strict" directive' 'silkwaram_strict "";'
    refuses '"silkwaram_tags": refused 3' 'server { location / { silkwaram_tags e-; } }'
    refuses '"silkwaram_default" has no "silkwaram_tags" and no "silkwaram_labels" in' \
        'silkwaram_default en;' 'server { location / { } }'
    refuses "\"silkwaram_tags\" and no \"silkwaram_labels\" in $room/bad.conf:11" \
        'server { silkwaram_tags en; }' 'server { location / {' 'silkwaram_default en; } }'
    refuses '"silkwaram_default" has no "silkwaram_tags" and no "silkwaram_labels" in' \
        'silkwaram_default en;' 'server { silkwaram_default ""; }'
    warns 0 'silkwaram' 'silkwaram_tags en; silkwaram_default en;'
    warns 0 'silkwaram' 'silkwaram_default en;' \
        'server { silkwaram_default ""; location / { location /a { silkwaram_tags fr; } } }'
    warns 1 '"silkwaram_default" "de" is not among "silkwaram_tags"' \
        'silkwaram_tags en fr; silkwaram_default de;' \
        'server { location / { } location /a { } }' 'server { }'
    warns 1 '"silkwaram_default" "en" is not among "silkwaram_tags"' \
        'silkwaram_tags en fr; silkwaram_default en;' \
        'server { location / { silkwaram_tags fr; } }'
    warns 0 'silkwaram' 'silkwaram_tags en fr; silkwaram_default EN;' 'server { location / { } }'
    bad_offers
}

# A default that is not offered is warned of once, and so are tags of which none is.
bad_offers() {
    local none='"silkwaram_offer" "de" offers none of "silkwaram_tags"'
    local not='is not among those of "silkwaram_tags" that are offered, so it is never chosen'
    warns 0 'silkwaram' 'silkwaram_tags en fr-CA; silkwaram_default fr-CA;' \
        'silkwaram_offer "fr, en;q=0.5";' 'server { location / { silkwaram_offer ""; } }'
    warns 1 "\"silkwaram_default\" \"en\" $not" \
        'silkwaram_tags en fr; silkwaram_default en; silkwaram_offer fr;' \
        'server { location / { } location /a { } }' 'server { }'
    warns 1 "\"silkwaram_default\" \"en\" $not" \
        'silkwaram_tags en fr; silkwaram_default en;' 'server { }' \
        'server { silkwaram_offer "*, en;q=0"; location / { } }'
    warns 0 'silkwaram' 'silkwaram_tags en fr; silkwaram_offer fr;' \
        'server { silkwaram_default fr; location / { } }'
    warns 0 'silkwaram' 'silkwaram_offer "fr, da"; silkwaram_default fr;' \
        'server { silkwaram_tags en fr; location / { silkwaram_tags fr da; } }'
    warns 1 'silkwaram' 'silkwaram_tags en fr; silkwaram_default en; silkwaram_offer de;' \
        'server { location / { } location /a { silkwaram_default fr; } }' 'server { }'
    warns 1 "$none" 'silkwaram_tags en fr; silkwaram_default en; silkwaram_offer de;' \
        'server { location / { } location /a { silkwaram_default fr; } }' 'server { }'
    warns 1 "$none" 'silkwaram_offer de;' \
        'server { silkwaram_tags de-CH; location / { silkwaram_tags x-de; } }'
    warns 0 'silkwaram' 'silkwaram_offer de;' 'server { location / { } }'
}

refuses_file() { # what nginx says before the name of a file, and the file
    refuses "\"silkwaram_labels\": $1: \"$room/$2.json\" in $room/bad.conf:" \
        "silkwaram_labels $2.json;"
}

# Files beside good.json that are no site, or not as it is written.
spoiled() {
    local good=$room/good.json
    echo '{"a":{"en":"x"}}' > "$room/maps.json"
    site < "$room/maps.json" > "$good"
    "$lexicat" summary < "$good" > "$room/summary.json"
    : > "$room/empty.json"
    head -c 40 "$good" > "$room/cut.json"
    cat "$good" "$good" > "$room/twice.json"
    sed 's/"paris",0/"paris",0.0/' "$good" > "$room/fraction.json"
    sed 's/"en"/"en_US"/' "$good" > "$room/tag.json"
    sed 's/\["x"\]/[]/' "$good" > "$room/texts.json"
    sed 's/\[\["a"/[["b","en",1,"paris",0,["x"]],["a"/' "$good" > "$room/order.json"
    sed 's/,"kind"/, "kind"/' "$good" > "$room/blank.json"
    echo '{"cells":[["a","en",1,1,0,["x"]]],"kind":"site","site":1,"version":1}' \
        > "$room/first.json"
    mkfifo "$room/pipe.json"
}

bad_labels() {
    local labels='silkwaram_labels good.json;' title='silkwaram_label $title title' name
    spoiled
    refuses "open() \"$room/none.json\" failed (2: No such file or directory) in" \
        'silkwaram_labels none.json;'
    refuses "\"$room/.\" is not a file in" 'silkwaram_labels .;'
    refuses "\"$room/pipe.json\" is not a file in" 'silkwaram_labels pipe.json;'
    for name in empty cut twice; do refuses_file 'refused 19: not JSON' "$name"; done
    for name in maps summary; do refuses_file 'refused 20: shape' "$name"; done
    refuses_file 'refused 20: shape in row 0' fraction
    refuses_file 'refused 3: subtag at 0 in row 0' tag
    refuses_file 'refused 12: label has 0 texts in row 0' texts
    refuses_file 'refused 21: cell order in row 1' order
    for name in blank first; do
        refuses_file 'a site, but not as "lexicat" writes it' "$name"
    done
    refuses '"silkwaram_labels": refused 20' \
        'server { location / { silkwaram_labels maps.json; } }'
    refuses '"silkwaram_labels" directive is duplicate in' "$labels" "$labels"
    refuses 'invalid number of arguments in "silkwaram_labels" directive' 'silkwaram_labels;'
    refuses '"silkwaram_label": refused 10: message id: "@a" in' 'silkwaram_label $title @a;'
    refuses '"silkwaram_label": refused 10: message id in' 'silkwaram_label $title "";'
    refuses '"silkwaram_label": refused 3: subtag at 0: "en_US" in' "$title default=en_US;"
    refuses 'invalid parameter "lenient" in' "$title lenient;"
    refuses 'invalid parameter "default" in' "$title default;"
    refuses 'invalid variable name "title" in' 'silkwaram_label title title;'
    refuses 'invalid variable name "$" in' 'silkwaram_label $ title;'
    refuses 'the duplicate "title" variable in' "$title;" "$title default=en;"
    for name in '' ' title default=en default=fr'; do
        refuses 'invalid number of arguments in "silkwaram_label"' "silkwaram_label \$title$name;"
    done
    refuses '"silkwaram_label" directive is not allowed here in' "server { $title; }"
    refuses '"silkwaram_label" "$title" has no "silkwaram_labels"' "$title;"
    warns 0 silkwaram 'silkwaram_default fr;' "$title;" "server { location / { $labels } }"
}

check 'the module is there' has_module
[ "$failed" -eq 0 ] || end
check 'configurations that are refused' tallied bad_configurations
if [ -x "$lexicat" ]; then
    check 'labels that are refused' tallied bad_labels
else
    lacks 'labels that are refused' "${lexicat#"$PWD/"}"
fi
end
