# shellcheck shell=bash disable=SC2015,SC2016,SC2034,SC2119,SC2120,SC2154
# Of the tests of the module for nginx: what they need, the module, the server, and what it answers.
# A test sources it after tests/lib/tap.sh, and is left out where something is not there.
#
# It takes build/lib/libsilkwaram.a, or that of the folder that SILKWARAM_LIB names; and, for sites
# and for what is compared with it, build/lexicat, or the command that LEXICAT names.
# Needed: nginx, nginx-dev, make, curl, a C compiler and python3.
PATH=$PATH:/usr/sbin
export LC_ALL=C
own=bindings/nginx/tests
library=${SILKWARAM_LIB:-build/lib}
lexicat=$(realpath -m "${LEXICAT:-build/lexicat}")
needs nginx make curl "${CC:-cc}" python3 /usr/share/nginx/src/configure \
    /usr/share/nginx/src/conf_flags "$library/libsilkwaram.a"
library=$(realpath "$library")
servers=()

stop() {
    local pid
    for pid in "${servers[@]}"; do kill -TERM "$pid" 2> /dev/null && has_ended "$pid"; done
    rm -rf "$room"
}
trap stop EXIT
trap 'exit 1' INT TERM

# (a worker of a server that root starts is another user, who has to get to the pages)
chmod 755 "$room"
mkdir "$room/modules"
module=$room/modules/ngx_http_silkwaram_module.so

until_so() { # a command that is called until it succeeds; the limit is the end of a hang alone
    local limit=$((SECONDS + 300))
    until "$@"; do
        [ "$SECONDS" -lt "$limit" ] || return 1
        sleep 0.1
    done
}

# The module of these sources, which is built once for all tests that run side by side.
has_module() {
    local kept=build/nginx-tests made
    mkdir -p "$kept"
    made=$kept/$({
        cat bindings/nginx/{build,config,*.c} include/silkwaram.h "$library/libsilkwaram.a"
        nginx -V 2>&1
    } | sha256sum | cut -c 1-16).so
    (
        flock 9
        if [ ! -e "$made" ]; then
            rm -f "$kept"/*.so
            SILKWARAM_LIB=$library bindings/nginx/build "$room/made.so" || exit 1
            cp "$room/made.so" "$made.next" && mv "$made.next" "$made" || exit 1
        fi
        cp "$made" "$module"
    ) 9> "$kept/lock"
}

is_gone() { ! kill -0 "$1" 2> /dev/null; } # a process

has_ended() { until_so is_gone "$1"; } # a process, after a while

# configured FILE: a configuration of what is on standard input, within `http`.
configured() {
    cat > "$1" << END
load_module modules/ngx_http_silkwaram_module.so;
pid nginx.pid;
worker_processes 2;
events { worker_connections 256; }
http {
access_log off;
$temporary
$(cat)
}
END
}
temporary='client_body_temp_path temp; proxy_temp_path temp; fastcgi_temp_path temp;
uwsgi_temp_path temp; scgi_temp_path temp;'

server() { # nginx with its files in the room; the words follow
    nginx -p "$room" -e "$room/error.log" "$@"
}

# started CONFIGURATION: the server is up, at a port that was free; PORT is its place in the file.
started() {
    local n
    for ((n = 0; n < 20; n++)); do
        port=$((20000 + RANDOM % 12000))
        sed "s/PORT/$port/" "$1" > "$room/nginx.conf"
        if server -c "$room/nginx.conf" 2> "$room/not-started"; then
            servers+=("$(cat "$room/nginx.pid")")
            return 0
        fi
        grep -q 'Address already in use' "$room/not-started" || break
    done
    cat "$room/not-started" >&2
    return 1
}

stopped() { # the last server that was started
    local pid=${servers[-1]}
    kill -QUIT "$pid" && has_ended "$pid" && unset 'servers[-1]'
}

tallied() { # a function that asks, and whether no answer was wrong
    asked=0
    wrong=0
    "$@" || return 1
    echo "$asked asked, $wrong wrong"
    [ "$wrong" -eq 0 ]
}

answers() { # what the answer is, the path, then words for curl
    local wanted=$1 path=$2 answer
    shift 2
    answer=$(curl -sS --max-time 300 "http://127.0.0.1:$port$path" "$@" 2>&1)
    asked=$((asked + 1))
    [ "$answer" = "$wanted" ] && return
    wrong=$((wrong + 1))
    echo "wanted '$wanted', not '$answer', of $path $(printf '%s ' "$@" | cut -c 1-200)"
}

gets() { # what the answer is, the path, then one field for each header line
    local wanted=$1 path=$2 words=() line
    shift 2
    for line; do words+=(-H "Accept-Language: $line"); done
    answers "$wanted" "$path" "${words[@]}"
}

commas() { head -c "$1" /dev/zero | tr '\0' ,; }

field_file() { # a file for curl with a header line: this text, then so many commas, then that text
    { printf 'Accept-Language: %s' "$1"; commas "$2"; echo "$3"; } > "$room/field-$4"
}

site() { # language maps on standard input, as the document of a site
    { "$lexicat" new --site paris; cat; } | "$lexicat" import --now "${1:-1}"
}

# The sites of the configuration of labels. (The last has no LF at its end.)
has_sites() {
    local texts='"en":"Catalogue","fr":["Catalogue","Liste"],"de-ch":"Verzeichnis"'
    python3 "$own/beside_lookup.py" --maps | site > "$room/hostile.json" &&
        echo "{\"title\":{$texts},\"x\":{\"en\":\"x\"}}" | site > "$room/site.json" &&
        echo '{"title":{"en":"Catalogue","x-note":"ask Anna"}}' | site > "$room/noted.json" &&
        printf %s "$(echo '{"title":{"fr":"Titre"}}' | site)" > "$room/other.json"
}
