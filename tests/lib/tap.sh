# shellcheck shell=bash disable=SC2034,SC2154
# What tests in bash share: what passes, fails and is skipped, as TAP on standard output (the Test
# Anything Protocol, which `prove` reads). A test sources this file from the top of the repository:
#
#     cd "$(dirname "$0")/../.." || exit 1
#     . tests/lib/tap.sh
#     check 'what is tried' command that tries it
#     end
#
# It makes a folder, `room`, which is removed when the test ends; `SEED`, of which random tests take
# their numbers, is the day unless the caller sets it. tests/lib/tap.py has the same words.
# A test that ends before it calls `end` has no plan, and so has failed.
passed=0
failed=0
skipped=0
count=0
room=$(mktemp -d)
trap 'rm -rf "$room"' EXIT
export SEED=${SEED:-$(date +%Y%m%d)} PYTHONDONTWRITEBYTECODE=1

is_there() { command -v "$1" > /dev/null; }

note() { # lines that explain
    local line
    while IFS= read -r line || [ -n "$line" ]; do printf '# %s\n' "$line"; done <<< "$*"
}

pass() { # what was tried, and what it said last, if anything
    passed=$((passed + 1))
    count=$((count + 1))
    echo "ok $count - $1"
    if [ -n "${2:-}" ]; then note "$2"; fi
}

fail() { # what failed, and why if that is known
    failed=$((failed + 1))
    count=$((count + 1))
    echo "not ok $count - $1"
    if [ -n "${2:-}" ]; then note "$2"; fi
}

skip() { # what is not tried, and why
    skipped=$((skipped + 1))
    count=$((count + 1))
    echo "ok $count - $1 # SKIP $2"
}

lacks() { # what is not tried, and what is not there for it
    skip "$1" "there is no $2"
}

check() { # what is tried, then the command that tries it
    local what=$1
    shift
    if "$@" > "$room/said" 2>&1 < /dev/null; then
        pass "$what" "$(tail -n 1 "$room/said")"
    else
        fail "$what" "$(tail -n 60 "$room/said")"
    fi
}

# Says which seed the random parts of this test have; another run repeats them by SEED=.
says_seed() { note "SEED=$SEED"; }

# Leaves the whole test out, and ends it, if one of these programs or files is not there.
needs() {
    local it
    for it; do
        case $it in
            */*) [ -e "$it" ] || skip_all "there is no ${it#"$PWD/"}" ;;
            *) is_there "$it" || skip_all "there is no $it" ;;
        esac
    done
}

skip_all() { # why the whole test is left out; before the first check
    echo "1..0 # SKIP $1"
    exit 0
}

end() {
    echo "1..$count"
    [ "$failed" -eq 0 ]
    exit
}
