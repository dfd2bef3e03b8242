#!/usr/bin/env bash
# Reloads the configuration of a server of its own, with the module for nginx, while requests go on.
# server.sh says what it takes and needs.
# shellcheck disable=SC1091,SC2015,SC2016,SC2034,SC2154,SC2317
cd "$(dirname "$0")/../../.." || exit 1
. tests/lib/tap.sh
. bindings/nginx/tests/server.sh

# So many answers have come, or none comes any more.
has_come() { [ "$(wc -l < "$room/during")" -ge "$1" ] || is_gone "$2"; }

is_anew() {
    answers 'nb state-1 ' / -H 'Accept-Language: nb' > "$room/after"
    [ ! -s "$room/after" ]
}

# The configuration becomes another one each time that 500 more answers have come.
reloads() {
    local n asking count=0 status tags=('fr da' 'fr nb') first=${servers[-1]}
    curl -sS -N --max-time 300 --no-keepalive -H 'Connection: close' -H 'Accept-Language: fr' \
        -w '%{http_code}\n' "http://127.0.0.1:$port/?[1-3000]" > "$room/during" 2>&1 &
    asking=$!
    for n in 1 0 1 0 1; do
        count=$((count + 500))
        until_so has_come "$count" "$asking" || return 1
        sed -e "s/^silkwaram_tags .*/silkwaram_tags ${tags[n]};/" \
            -e "s/return 200 .*;/return 200 \"\$silkwaram_lang state-$n \";/" \
            "$room/nginx.conf" > "$room/next.conf"
        cp "$room/next.conf" "$room/nginx.conf"
        server -c "$room/nginx.conf" -s reload || return 1
    done
    wait "$asking"
    status=$?
    [ "$status" -eq 0 ] || { echo "curl ended with $status"; tail -n 3 "$room/during"; return 1; }
    sort "$room/during" | uniq -c
    [ "$(grep -cxE 'fr state-[01] 200' "$room/during")" -eq 3000 ] || return 1
    [ "$(grep -c 'state-0' "$room/during")" -ge 500 ] || return 1
    until_so is_anew && kill -0 "$first" && echo '3000 requests, 5 reloads'
}

# (a worker of the state before may still be there on a busy machine)
is_kept() {
    answers 'fr state-1 ' / -H 'Accept-Language: fr' > "$room/after"
    [ ! -s "$room/after" ]
}

# Once more than before. (The signal is sent again, as one that comes during a reload may be lost.)
is_refused() {
    kill -HUP "${servers[-1]}"
    [ "$(grep -c '\[emerg\]' "$room/error.log")" -gt "$1" ]
}

# A state that is refused leaves the one that is there.
keeps() {
    local before
    sed -i 's/^silkwaram_tags .*/silkwaram_tags en_US;/' "$room/nginx.conf"
    ! server -c "$room/nginx.conf" -s reload || return 1
    before=$(grep -c '\[emerg\]' "$room/error.log")
    until_so is_refused "$before" || { echo 'it is not refused'; return 1; }
    asked=0
    until_so is_kept || { cat "$room/after"; return 1; }
}

check 'the module is there' has_module
[ "$failed" -eq 0 ] || end
configured "$room/second.conf" << 'END'
silkwaram_tags fr da;
server { listen 127.0.0.1:PORT; return 200 "$silkwaram_lang state-0 "; }
END
check 'the server starts once more' started "$room/second.conf"
[ "$failed" -eq 0 ] || end
check 'reloads while requests go on' reloads
check 'a reload that is refused leaves the state' keeps
check 'the server stops' stopped
end
