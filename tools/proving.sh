# shellcheck shell=bash
# What the scripts that call the Rattle kit's command `rt` have in common. They source this file from
# the top of the repository. It sets `rt`, and ends the script where there is no such command.
rt=${RT:-rt}
if ! command -v "$rt" > /dev/null; then
    echo "There is no command '$rt', by which the Rattle kit proves, builds and tries the sources. Put the" >&2
    echo "kit's folder bin on the PATH, or name the command, as in: make RT=/path/to/the/kit/bin/rt" >&2
    exit 127
fi
logs=$PWD/build/proofs

kit() { # the folder of the kit that rt is of
    dirname "$(dirname "$(readlink -f "$(command -v "$rt")")")"
}

# The first line of a crate's log: a sum of the kit's name and of the crate's files but its mutants,
# which no proof reads.
sum_line() { # CRATE
    RT=$rt python3 tools/rattle_kit.py "$1"
}

# Runs rt in the folder of a crate. All that it prints goes to build/proofs/CRATE.log; its progress and
# its verdict are seen, and where it fails all that is not the line of a thing that was proved. A run
# that checks nothing, since nothing changed, leaves the log as it is.
logged() { # CRATE WORD..
    local crate=$1 log=$logs/$1.log status=0
    shift
    mkdir -p "$logs"
    sum_line "$crate" > "$log.now"
    (
        set -o pipefail
        cd "crates/$crate" && "$rt" "$@" 2>&1 | while IFS= read -r line; do
            printf '%s\n' "$line" >> "$log.now"
            case $line in
                'so far: '* | 'rt: '* | logic=*) printf '%s\n' "$line" ;;
            esac
        done
    ) || status=$?
    if [ "$status" -ne 0 ]; then
        mv "$log.now" "$log"
        grep -vE '^(sources|so far|rt): |: proved$|^logic |^(statements|library|crate) .* modules loaded=' "$log" >&2 || true
        echo "$crate is not proved; build/proofs/$crate.log has all that was printed" >&2
    elif grep -q '^logic=' "$log.now"; then
        mv "$log.now" "$log"
    else
        rm "$log.now"
    fi
    return "$status"
}

# Prints the verdict on a crate, as "logic=proved functions=140 ..": it is in the log of the run that
# checked these sources; where there is none, the crate is checked once more over what is kept.
verdict_of() { # CRATE
    local log=$logs/$1.log
    if ! [ -f "$log" ] || [ "$(head -n 1 "$log")" != "$(sum_line "$1")" ] || ! grep -q '^logic=' "$log"; then
        logged "$1" check >&2 || return
    fi
    # (where rt proved lower crates in that run too, their verdicts come first)
    if ! grep '^logic=' "$log" | tail -n 1 | grep '^logic=proved '; then
        echo "build/proofs/$1.log does not say that $1 is proved" >&2
        return 1
    fi
}
