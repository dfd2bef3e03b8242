#!/usr/bin/env bash
# Tries the engines of examples/engines and the offices of examples/exchange/streams.py. The steps:
# what a killed or failed one leaves. Dask: a scheduler and three workers on loopback, one of them
# killed; all results are compared, byte for byte, with those of plain commands under GNU parallel,
# as examples/parts runs them. Redis: five offices that lose and double messages, and are killed, as
# is the server; all have to end with what the edits themselves come to. What is edited, lost and
# killed there is random.
#
# Takes build/lib/libsilkwaram.so, which `make library` builds, or the file that SILKWARAM_LIBRARY
# names, and build/lexicat or the command that LEXICAT names. Needed: python3; for Dask GNU parallel
# and distributed for python3 (Debian's parallel, python3-distributed); for Redis redis-server and
# redis for python3 (redis-server, python3-redis).
# ENGINES_MESSAGES and ENGINES_PARTS say how large the catalogue is (2000 in 16).
cd "$(dirname "$0")/../.." || exit 1
. tests/lib/tap.sh
export SILKWARAM_LIBRARY=${SILKWARAM_LIBRARY:-$PWD/build/lib/libsilkwaram.so}
lexicat=$(realpath -m "${LEXICAT:-build/lexicat}")
needs "$SILKWARAM_LIBRARY" "$lexicat" python3
export PYTHONPATH=$PWD/bindings/python/src READERS=30
own=$PWD/examples/tests/engines
engines=$PWD/examples/engines
mkdir "$room/bin"
ln -s "$lexicat" "$room/bin/lexicat"
PATH=$room/bin:$PATH

python_with() { # the first python that has a module, if any
    local python
    for python in python3 /usr/bin/python3; do
        if "$python" -c "import $1" 2> /dev/null; then
            echo "$python"
            return
        fi
    done
}

# What the steps have to make, without steps.py: $room/plain.
run() { (cd maps && ls) | parallel --jobs 3 --halt now,fail=1 "$1"; }
plain() (
    unset PARALLEL
    export PARALLEL_HOME=$room/parallel PARALLEL_SHELL=$BASH
    mkdir -p "$PARALLEL_HOME"
    "$engines/prepare" "$room/plain" "${ENGINES_MESSAGES:-2000}" "${ENGINES_PARTS:-16}" || exit
    cp -r "$room/plain" "$room/dask"
    cd "$room/plain" || exit
    mkdir begun paris deltas taken tokyo both missing
    run '(lexicat new --site paris; cat maps/{}) | lexicat import --now 100 > begun/{}' &&
        run '(cat begun/{}; cat corrected/{}) | lexicat import --now 200 > paris/{}' &&
        run '(cat begun/{}; lexicat new --site tokyo | lexicat summary) |
            lexicat delta > deltas/{}' &&
        run '(lexicat new --site tokyo; cat deltas/{}) | lexicat take > taken/{}' &&
        run 'cat taken/{} mended/{} | lexicat import --now 300 > tokyo/{}' &&
        run 'cat paris/{} tokyo/{} | lexicat sync > both/{}' &&
        run 'echo "{""}" > missing/{}' &&
        cat both/*.json | wc -c | sed 's/$/ bytes of merged sites/'
)

# try_with MODULE PACKAGE NAME PROGRAM [WORD..]: tries a program, by the first python that has a
# module.
try_with() {
    local module=$1 package=$2 name=$3 python
    shift 3
    python=$(python_with "$module")
    if [ -n "$python" ]; then
        check "$name" "$python" "$@"
    else
        lacks "$name" "$module for python3 (Debian: $package)"
    fi
}

says_seed
check 'what a step leaves that is killed or fails' python3 "$own/halves.py" "$engines/steps.py"

if is_there parallel; then
    check 'plain commands under GNU parallel' plain
    try_with distributed python3-distributed 'Dask, a worker of which is killed' \
        "$own/dask_trial.py" "$engines" "$room/dask" "$room/plain"
else
    lacks 'plain commands under GNU parallel' parallel
    lacks 'Dask, a worker of which is killed' 'parallel to compare with'
fi

if is_there redis-server; then
    try_with redis python3-redis 'an office that is killed, and is sent anything' \
        "$own/one_office.py" "$room/one"
    try_with redis python3-redis 'five offices over Redis, killed as is the server' \
        "$own/five_offices.py" "$room/five"
else
    lacks 'an office that is killed, and is sent anything' redis-server
    lacks 'five offices over Redis, killed as is the server' redis-server
fi
end
