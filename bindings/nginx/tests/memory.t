#!/usr/bin/env bash
# Sends 1,000 requests to a server with the module for nginx, under valgrind. server.sh says what it
# takes and needs. The fields are made of SEED.
# shellcheck disable=SC1091,SC2015,SC2016,SC2034,SC2154,SC2317
cd "$(dirname "$0")/../../.." || exit 1
. tests/lib/tap.sh
. bindings/nginx/tests/server.sh

needs valgrind "$lexicat"

runs() { # nginx under valgrind, at a port that may be free
    port=$((20000 + RANDOM % 12000))
    sed "s/PORT/$port/" "$room/memory.conf" > "$room/nginx.conf"
    valgrind --leak-check=full --show-leak-kinds=definite,indirect --log-file="$room/valgrind" \
        nginx -p "$room" -e "$room/error.log" -c "$room/nginx.conf" \
        -g 'daemon off; master_process off;' 2> "$room/not-started" &
    pid=$!
    servers=("$pid")
}

is_up() { # it answers, or has ended
    curl -s -o "$room/body" "http://127.0.0.1:$port/strict" || is_gone "$pid"
}

# Long tags and joined fields have blocks of memory of their own, past whose ends valgrind sees. The
# module's own frames count; what nginx itself leaves is not of this check.
under_valgrind() {
    local n pid tags
    tags=$(for ((n = 0; n < 700; n++)); do printf 'en-x-a%06d ' "$n"; done)
    configured "$room/memory.conf" << END
large_client_header_buffers 4 16k;
silkwaram_label \$hostile hostile;
server {
    listen 127.0.0.1:PORT;
    silkwaram_default en;
    silkwaram_tags en fr de-CH zh-Hant;
    location /strict {
        silkwaram_lenient off;
        silkwaram_widen off;
        silkwaram_strict on;
        return 200 "\$silkwaram_lang \$silkwaram_lang\\n";
    }
    location /lenient {
        silkwaram_tags $tags en fr;
        silkwaram_offer "fr, en-x-a000699, en;q=0.5";
        return 200 "\$silkwaram_lang\\n";
    }
    location /wide { silkwaram_lenient off; return 200 "\$silkwaram_lang\\n"; }
    location /always { silkwaram_widen off; return 200 "\$silkwaram_lang\\n"; }
    location /usual { silkwaram_offer fr; return 200 "\$silkwaram_lang\\n"; }
    location /next { silkwaram_fallbacks "de=fr, nb=de-CH"; return 200 "\$silkwaram_lang\\n"; }
    location /labels/ { silkwaram_labels hostile.json; return 200 "\$hostile\$hostile\\n"; }
}
END
    for ((n = 0; n < 20; n++)); do
        runs
        until_so is_up || return 1
        is_gone "$pid" || break
        grep -q 'Address already in use' "$room/not-started" || break
    done
    if is_gone "$pid"; then cat "$room/not-started"; return 1; fi
    field_file 'ja' 5000 '' one
    field_file '' 6000 'fr' two
    field_file 'it' 5000 '' three
    python3 "$own/beside_pick.py" --print 85 "http://127.0.0.1:$port" > "$room/questions"
    for n in 1 2; do curl -sS -K "$room/questions" > "$room/body" || return 1; done
    [ "$(wc -l < "$room/body")" -eq 510 ] || return 1
    asked=0
    wrong=0
    answers 'fr fr' /strict -H "@$room/field-one" -H "@$room/field-two"
    answers fr /lenient -H "@$room/field-one" -H "@$room/field-two"
    answers "$(head -c 131070 /dev/zero | tr '\0' x)" /labels/ -H 'Accept-Language: zh-Hant'
    answers firstfirst /labels/ -H "@$room/field-three" -H 'Accept-Language: i-klingon'
    [ "$wrong" -eq 0 ] || return 1
    # (a signal that comes just before nginx waits for events is seen at the next one)
    while kill -QUIT "$pid" 2> "$room/ended"; do sleep 0.5; done
    wait "$pid"
    servers=()
    grep -q 'ERROR SUMMARY' "$room/valgrind" || { tail -n 20 "$room/valgrind"; return 1; }
    if grep -E -B 3 -A 6 'silkwaram|sw_' "$room/valgrind"; then return 1; fi
    echo '1020 requests, nothing in the frames of the module'
}

says_seed
check 'the module is there' has_module
[ "$failed" -eq 0 ] || end
check 'sites' has_sites
check 'requests under valgrind' under_valgrind
end
