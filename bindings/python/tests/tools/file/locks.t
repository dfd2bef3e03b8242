#!/usr/bin/env bash
# shellcheck disable=SC2016,SC2034,SC2086,SC2154
# Tries lexicat-file with what may be in the place of a lock, with two users, and by what
# it keeps of the file that it replaces. It takes and needs what bindings/python/tests/tools/lib.sh says; for
# two users it has to be root.
cd "$(dirname "$0")/../../../../.." || exit 1
. bindings/python/tests/tools/file/site.sh
put='put --id hi --lang en Hello'
top=$PWD

# holds_lock: another one has the lock of paris.json, until lets_go.
holds_lock() {
    rm -f free
    flock paris.json.lock \
        sh -c ': > held; while [ -e held ] && [ ! -e free ]; do sleep 0.02; done' &
    holder=$!
    waits_for [ -e held ]
}

lets_go() {
    : > free
    wait "$holder"
    rm held
}

no_locks() {
    local make
    site
    rm paris.json.lock
    cp paris.json before
    touch elsewhere
    chmod 600 elsewhere
    for make in 'mkfifo paris.json.lock' 'mkdir paris.json.lock' 'ln -s elsewhere paris.json.lock' \
        'ln -s nowhere paris.json.lock'; do
        $make
        ends 4 timeout "$patience" lexicat-file paris.json $put
        reports 'paris.json: its lock is not a plain file: '
        rm -r paris.json.lock
    done
    [ "$(stat -c %a elsewhere)" = 600 ] || fault "a link was followed"
    [ ! -e nowhere ] || fault "a link was followed"
    same paris.json before
    # A name that is refused leaves no lock.
    ends 3 lexicat-file oslo.json new --site Oslo
    ends 4 lexicat-file oslo.json put --id hi --lang en x
    [ -z "$(find . -name 'oslo*')" ] || fault "left: $(find . -name 'oslo*')"
    tidy
}

# The mode and the group of the site, whatever the umask is, now and later.
modes() {
    site
    rm paris.json.lock
    chmod 664 paris.json
    (umask 077; ends 0 lexicat-file paris.json $put)
    [ "$(stat -c %a paris.json.lock)" = 664 ] || fault "mode $(stat -c %a paris.json.lock)"
    chmod 640 paris.json
    ends 0 lexicat-file paris.json $put
    [ "$(stat -c %a paris.json.lock)" = 640 ] || fault "mode $(stat -c %a paris.json.lock)"
    tidy
}

# The site is gone, or has another name, once the lock is free.
gone() {
    local make
    site
    for make in 'mv paris.json away' 'ln paris.json linked'; do
        rm -f fcntl.flock.began
        holds_lock
        MARK=fcntl.flock timeout "$patience" lexicat-file paris.json $put 2> errors &
        waits_for [ -e fcntl.flock.began ]
        $make
        lets_go
        ends 4 wait $!
        [ ! -e away ] || mv away paris.json
    done
    tidy
}

# An edit by one name leaves the other as it was.
hard_links() {
    local way
    site
    ln paris.json linked
    cp paris.json before
    lexicat-file tokyo.json new --site tokyo
    for way in "$put" 'sync tokyo.json' 'merge tokyo.json'; do
        ends 4 lexicat-file paris.json $way
        reports 'paris.json: has other names (hard links)'
    done
    ends 4 lexicat-file tokyo.json sync linked
    ends 0 lexicat-file paris.json status
    same paris.json before
    cp -p paris.json own
    mv own paris.json
    ends 0 lexicat-file paris.json $put
    same linked before
    tidy
}

# as USER COMMAND..: runs it as a user without rights, of an own group and of one that all are in.
as() {
    local user=$1
    shift
    setpriv --reuid "$user" --regid "$user" --groups 64000 --no-new-privs "$@"
}

# can_be_read: the programs are copies, which any user can read wherever the repository is.
can_be_read() {
    cp "$LEXICAT" "$part/lexicat"
    cp -r "$PACKAGE" "$part/package"
    cp -rL "$LIBRARIES" "$part/lib"
    (cd "$top" && tools/programs "$part/bin" "$part/package" "$part/lib")
    chmod -R a+rX "$part/package" "$part/lib" "$part/bin"
    LEXICAT=$part/lexicat
    PATH=$part/bin:$PATH
    PYTHONPATH=$part/package
    SILKWARAM_LIBRARY=$part/lib/libsilkwaram.so.0
    SILKWARAM_COMMAND_LIBRARY=$part/lib/libsilkwaram-command.so.0
}

# Two users who may both write the site, and one who may not; a folder that nobody may write.
two_users() {
    local file put
    if [ "$(id -u)" -ne 0 ] || ! as 64001 true 2> /dev/null; then
        leaves_out 'it has to be root'
    fi
    site
    chmod 755 "$room" "$part" .
    can_be_read
    mkdir shared
    chgrp 64000 shared
    chmod 775 shared
    mv paris.json shared
    chgrp 64000 shared/paris.json
    chmod 664 shared/paris.json
    rm paris.json.lock
    put="umask 077; lexicat-file --wait $patience shared/paris.json put --lang en x"
    ends 0 as 64001 sh -c "$put --id a"
    ends 0 as 64002 sh -c "$put --id b"
    ends 0 as 64001 sh -c "$put --id c"
    cp shared/paris.json kept
    jq -e '[.cells[][0]] == ["a", "b", "c"]' kept > output || fault "$(cat kept)"
    for file in shared/paris.json shared/paris.json.lock; do
        [ "$(stat -c %g:%a $file)" = 64000:664 ] || fault "$(stat -c '%n %g:%a' $file)"
    done
    # A lock that somebody else may not read is said to be one.
    chown 64001 shared/paris.json.lock
    chmod 600 shared/paris.json.lock
    ends 4 as 64002 sh -c "$put --id d"
    reports 'its lock may not be read'
    # Its owner mends it by the next edit.
    ends 0 as 64001 sh -c "$put --id d"
    ends 0 as 64002 sh -c "$put --id e"
    cp shared/paris.json kept
    chmod 555 shared
    ends 4 as 64002 sh -c "$put --id f"
    chmod 644 shared/paris.json
    chown 64001 shared/paris.json
    ends 4 as 64002 sh -c "$put --id f"
    reports 'not a file that may be written'
    same shared/paris.json kept
    chmod 755 shared
    tidy
}

# What is kept of the file that is replaced, and what is used where nothing is given.
manners() {
    local earlier later
    site
    [ "$(stat -c %a paris.json)" = "$(printf %o $((0666 & ~$(umask))))" ] \
        || fault "mode of a new site"
    chmod 640 paris.json
    mkdir elsewhere
    ln -s ../paris.json elsewhere/link.json
    earlier=$(date +%s%3N)
    ends 0 lexicat-file elsewhere/link.json put --id hi --lang en Hello
    later=$(date +%s%3N)
    [ -L elsewhere/link.json ] || fault "the link was replaced"
    [ "$(stat -c %a paris.json)" = 640 ] || fault "the mode is lost"
    jq -e ".cells[0][2] >= $earlier and .cells[0][2] <= $later" paris.json > output \
        || fault "not the clock"
    ends 0 lexicat-file paris.json delete --now=7 --id hi --lang en
    ends 0 lexicat-file paris.json put --id now --lang en -- --now
    [ "$("$LEXICAT" lookup --id now en < paris.json)" = 'matched en ["--now"]' ] \
        || fault "--now as a text"
    ends 1 lexicat-file paris.json lookup --id hi en
    grep -qx nothing output || fault "$(cat output)"
    "$LEXICAT" new --site tokyo | "$LEXICAT" summary > tokyo.summary
    FROM=tokyo.summary ends 0 lexicat-file paris.json delta
    jq -e '.kind == "delta" and .to == "tokyo"' output > errors || fault "no delta"
    # A site that stays the same is left alone.
    touch -d '2001-01-01' paris.json
    printf '{}\n{}\n' > maps
    FROM=maps ends 0 lexicat-file paris.json update
    [ "$(stat -c %Y paris.json)" -lt 1000000000 ] || fault "replaced without a change"
    tidy
}

any_names() {
    site
    mkdir "a'b c"
    ends 0 lexicat-file "a'b c/-x\$y 
z" new --site oslo
    ends 0 lexicat-file "a'b c/-x\$y 
z" put --id hi --lang en Hello
    ends 0 lexicat-file paris.json sync "a'b c/-x\$y 
z"
    (cd "a'b c" && mv ./*z -- -x && lexicat-file -- -x put --id hi --lang nb Hei) \
        || fault "a name with a hyphen"
    EDITOR='sed -i s/Hei/Hallo/' ends 0 lexicat-edit "a'b c/-x" nb
    [ "$(cat output)" = '["hi","nb",["Hallo"]]' ] || fault "$(cat output)"
    tidy
}

anothers_lock() {
    site
    holds_lock
    ends 6 lexicat-file --wait 1 paris.json $put
    reports 'still in use by another program after 1 seconds'
    ends 0 lexicat-file paris.json status
    MARK=fcntl.flock lexicat-file "--wait=$patience" paris.json $put 2> errors &
    waits_for [ -e fcntl.flock.began ]
    lets_go
    ends 0 wait $!
    labels '{"hi":{"en":"Hello"}}'
    tidy
}

try 'what is in the place of a lock' no_locks
try 'the mode of a lock' modes
try 'a site that goes while its lock is waited for' gone
try 'hard links' hard_links
try 'two users' two_users
try 'what is kept of a file, and the clock' manners
try 'names of any kind' any_names
try 'a lock that another one has' anothers_lock
end
