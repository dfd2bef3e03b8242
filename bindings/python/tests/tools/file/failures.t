#!/usr/bin/env bash
# shellcheck disable=SC2016,SC2034,SC2154
# Tries lexicat-file with commands and calls that fail, with signals and with too large sites: whatever
# fails, the site keeps its bytes, and the status says so. (crashes.t has disks that get full.) It takes
# and needs what bindings/python/tests/tools/lib.sh says.
cd "$(dirname "$0")/../../../../.." || exit 1
. bindings/python/tests/tools/file/site.sh

# hello: a site with a label, and a copy of it.
hello() {
    site
    lexicat-file paris.json put --now 5 --id hi --lang en Hello
    cp paris.json before
}

# A site of the most bytes that a command reads, and one byte more. (Texts of 65,535 bytes, and one
# that fills it up.)
too_large() {
    local bytes=67108864 size
    site
    jq -nc '("x" * 65535) as $it | [range(1010)] | map({key: "m\(.)", value: {en: $it}}) | from_entries' \
        > maps
    ends 0 lexicat-file paris.json import --now 5 maps
    # (what a row is longer than its text)
    ends 0 lexicat-file paris.json put --now 5 --id z --lang en ''
    size=$(wc -c < paris.json)
    while [ $((bytes - size)) -gt 65535 ]; do
        ends 0 lexicat-file paris.json put --now 5 --id "y$size" --lang en \
            "$(head -c 60000 /dev/zero | tr '\0' x)"
        size=$(wc -c < paris.json)
    done
    head -c $((bytes - size)) /dev/zero | tr '\0' x > text
    cp paris.json before
    ends 3 lexicat-file paris.json put --now 5 --id z --lang en "$(cat text)x"
    reports "paris.json: would have $((bytes + 1)) bytes, over the $bytes that a command reads"
    same paris.json before
    ends 0 lexicat-file paris.json put --now 5 --id z --lang en "$(cat text)"
    [ "$(wc -c < paris.json)" -eq "$bytes" ] || fault "$(wc -c < paris.json) bytes"
    ends 1 lexicat-file paris.json doctor
    grep -q "FAULT: the site is over half of the $bytes bytes that a command reads" output ||
        fault "doctor: $(cat output)"
    tidy
    rm -f paris.json paris.json.changes before maps
}

# closed COMMAND..: runs it with its standard output closed.
closed() {
    "$@" >&-
}

refused_commands() {
    hello
    ends 3 lexicat-file paris.json put --id @hi --lang en Hello
    ends 2 lexicat-file paris.json put --id hi --lang en
    ends 2 lexicat-file paris.json put --now soon --id hi --lang en Hello
    ends 3 lexicat-file paris.json import
    ends 3 lexicat-file paris.json update
    ends 3 lexicat-file paris.json take
    ends 2 lexicat-file paris.json erase
    ends 2 lexicat-file paris.json pick en en
    ends 2 lexicat-file paris.json
    ends 2 lexicat-file
    ends 2 lexicat-file --wait soon paris.json status
    ends 2 lexicat-file paris.json sync
    ends 2 lexicat-file paris.json sync ./paris.json
    ends 3 lexicat-file paris.json new --site tokyo
    ends 4 lexicat-file tokyo.json put --id hi --lang en Hello
    ends 4 lexicat-file tokyo.json status
    ends 4 lexicat-file nowhere/tokyo.json new --site tokyo
    ends 4 lexicat-file . status
    ends 0 lexicat-file paris.json put --id hi --lang en Bye --help
    grep -q '^Usage: lexicat put' output || fault "no help of put"
    ends 0 lexicat-file --help
    ends 4 closed lexicat-file paris.json status
    ends 2 lexicat-file put paris.json --id hi --lang en Bye
    reports 'SITE comes first: lexicat-file paris.json put ..'
    ends 2 lexicat-file delete --id hi --lang en
    reports 'SITE comes first: lexicat-file SITE delete ..'
    ends 2 lexicat-file paris.json put a en x
    reports 'lexicat-file paris.json put --id ID --lang LANG TEXT..'
    ends 0 lexicat-file --version
    same paris.json before
    [ -z "$(find . -name 'tokyo*')" ] || fault "a file was made"
    tidy
}

# Calls of the system that fail while a site is edited, and what is said then.
failing_calls() {
    local call
    hello
    for call in os.fsync:EIO os.replace:ENOSPC os.open:ENOSPC:lexicat- os.open:EACCES:.lock; do
        FAIL=$call ends 4 lexicat-file paris.json put --id hi --lang en Bye
        same paris.json before
    done
    FAIL=os.replace:ENOSPC ends 4 lexicat-file paris.json put --id hi --lang en Bye
    reports 'paris.json: cannot be replaced: No space left on device'
    FAIL=fcntl.flock:ENOLCK ends 4 lexicat-file paris.json put --id hi --lang en Bye
    reports 'paris.json: its lock cannot be taken: No locks available'
    same paris.json before
    # The edit is made where its log cannot be written.
    FAIL=os.pread:EIO ends 0 lexicat-file paris.json put --id hi --lang en Bye
    reports 'the edit was made, but is not in the log'
    lexicat-file paris.json lookup --id hi en > output
    prints 'matched en ["Bye"]'
    # (by the flags with which it is opened to be written, and not to be read)
    FAIL=os.open:EACCES:$(python3 -c 'from os import *
print(O_RDWR | O_APPEND | O_CLOEXEC | O_NOFOLLOW | O_NONBLOCK)') ends 1 lexicat-file paris.json doctor
    grep -q 'FAULT: .*paris.json.changes cannot be written: no edit is logged' output ||
        fault "doctor: $(cat output)"
    tidy
}

# An interrupt or a signal while it waits for a document that nobody writes, and for a lock, though
# this test may have been started by one that ignores them, as nohup does.
signals() {
    local signal
    hello
    # (held open, so that it has neither bytes nor an end)
    mkfifo nobody
    exec 5<> nobody
    : >> paris.json.lock
    flock paris.json.lock sh -c ": > held; while [ ! -e free ]; do sleep 0.02; done" &
    waits_for [ -e held ]
    for signal in 'INT 130' 'TERM 143' 'HUP 129'; do
        rm -f fcntl.flock.began
        set -m
        MARK=fcntl.flock env --default-signal \
            lexicat-file paris.json put --id hi --lang en Bye 2> errors &
        set +m
        waits_for [ -e fcntl.flock.began ]
        kill "-${signal% *}" -- "-$!"
        ends "${signal#* }" wait $!
        rm -f builtins.open.began
        set -m
        MARK=builtins.open env --default-signal lexicat-file paris.json import nobody 2> errors &
        set +m
        waits_for [ -e builtins.open.began ]
        kill "-${signal% *}" -- "-$!"
        ends "${signal#* }" wait $!
    done
    : > free
    wait
    same paris.json before
    tidy
}

try 'a site of the most bytes that a command reads, and one byte more' too_large
try 'commands that are refused' refused_commands
try 'calls of the system that fail' failing_calls
try 'interrupts and signals' signals
end
