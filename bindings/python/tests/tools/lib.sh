# shellcheck shell=bash disable=SC2034,SC2154
# What the tests of the package's programs share: parts. A part is a function that runs the programs in a
# folder of its own, and it is one test. Its faults are its notes; it fails too as soon as a command
# of it fails that nothing looks at. A test sources this file from the top of the repository:
#
#     cd "$(dirname "$0")/../../../../.." || exit 1
#     . bindings/python/tests/tools/lib.sh
#     is_kept() { new_site paris.json paris; ends 0 lexicat-file paris.json status; }
#     try 'a site is kept' is_kept
#     end
#
# It takes build/lexicat, or the command that LEXICAT names, and the libraries of build/lib. PACKAGE
# names a folder with another package silkwaram, so that one can see that a faulty one does not pass.
# hooks.py says how a part sets the clock, and has a call fail. Needed: /usr/bin/python3, flock of
# util-linux, and jq.
set -u
. tests/lib/tap.sh
LEXICAT=$(realpath -m "${LEXICAT:-build/lexicat}")
PACKAGE=$(realpath -m "${PACKAGE:-bindings/python/src}")
LIBRARIES=$(realpath -m "${LIBRARIES:-build/lib}")
needs "$LEXICAT" "$PACKAGE" "$LIBRARIES/libsilkwaram.so.0" "$LIBRARIES/libsilkwaram-command.so.0" \
    /usr/bin/python3 flock jq
tools/programs "$room/bin" "$PACKAGE" "$LIBRARIES"
sed -i "/^HERE = /a sys.path.insert(0, '$PWD/bindings/python/tests/tools')\\nimport hooks" "$room"/bin/*
PATH=$room/bin:$PATH
SILKWARAM_LIBRARY=$LIBRARIES/libsilkwaram.so.0
SILKWARAM_COMMAND_LIBRARY=$LIBRARIES/libsilkwaram-command.so.0
PYTHONPATH=$PACKAGE:$PWD/bindings/python/tests/tools
export SILKWARAM_LIBRARY SILKWARAM_COMMAND_LIBRARY PYTHONPATH
# (for a wait that ends by what is waited for: in so many seconds it hangs)
patience=600
PYCACHE=$room/compiled
export LEXICAT PATH PYCACHE LC_ALL=C.UTF-8
unset LANGUAGE

# try NAME FUNCTION [WORD..]: runs a part, which is a test of this name.
try() {
    local name=$1 status
    part=$room/part-$((count + 1))
    shift
    mkdir -p "$part/here" "$part/tmp"
    (
        set -eEu
        trap 'echo "${BASH_SOURCE[0]##*/}, line $LINENO: $BASH_COMMAND" > "$part/failed"' ERR
        export TMPDIR=$part/tmp
        cd "$part/here"
        "$@"
    ) > "$part/said" 2>&1 < /dev/null
    status=$?
    if [ -s "$part/faults" ]; then
        fail "$name" "$(head -n 60 "$part/faults")"
    elif [ "$status" -ne 0 ]; then
        fail "$name" "ended with $status: $(cat "$part/failed"; tail -n 60 "$part/said")"
    elif [ -s "$part/left_out" ]; then
        skip "$name" "$(cat "$part/left_out")"
    else
        pass "$name" "$(cat "$part/says" 2> /dev/null)"
    fi
}

# fault TEXT..: the part has a fault.
fault() { echo "$*" >> "$part/faults"; }

# says TEXT..: what the part came to.
says() { echo "$*" >> "$part/says"; }

# leaves_out WHY..: the part is not tried.
leaves_out() {
    echo "$*" > "$part/left_out"
    exit 0
}

# new_site FILE NAME: an empty site in a file.
new_site() { lexicat-file "$1" new --site "$2" || fault 'no new site'; }

# imports TIME MAPS: the labels of language maps are put into site.json at a time.
imports() { echo "$2" | lexicat-file site.json import --now "$1" || fault "no import of $2"; }

# ends STATUS COMMAND..: the command ends so. What it prints is in the files output and errors.
ends() {
    local wanted=$1 status=0
    shift
    "$@" > output 2> errors < "${FROM:-/dev/null}" || status=$?
    [ "$status" -eq "$wanted" ] || fault "$* ended with $status, not $wanted: $(cat errors)"
}

# prints LINE..: the last command wrote these lines to standard output.
prints() {
    [ "$(cat output)" = "$(printf '%s\n' "$@")" ] || fault "wanted '$*', not '$(cat output)'"
}

# waits_for COMMAND..: until it holds.
waits_for() {
    local end=$((SECONDS + patience))
    until "$@"; do
        if [ "$SECONDS" -gt "$end" ]; then
            fault "$patience seconds, and not yet: $*"
            exit 1
        fi
        sleep 0.02
    done
}
