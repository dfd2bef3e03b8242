#!/usr/bin/env bash
# shellcheck disable=SC2016,SC2034,SC2154
# Tries lexicat-file with deletions, labels that are confirmed, edits that are taken
# back, and logs of edits. It takes and needs what bindings/python/tests/tools/lib.sh says.
cd "$(dirname "$0")/../../../../.." || exit 1
. bindings/python/tests/tools/file/site.sh

deletions() {
    site
    # (an empty text is a text, and no request for help)
    ends 0 lexicat-file paris.json put --now 4 --id hi --lang en ''
    cells '["hi","en",4,"paris",0,[""]]'
    lexicat-file paris.json put --now 5 --id hi --lang en Hello
    cp paris.json before
    ends 1 lexicat-file paris.json delete --id hj --lang en
    reports 'paris.json: has no such label, and is as it was'
    ends 1 lexicat-file paris.json delete --id hi --lang en-us
    same paris.json before
    ends 3 lexicat-file paris.json delete --id hi --lang e
    ends 0 lexicat-file paris.json delete --now 6 --id hi --lang EN
    cells '["hi","en",6,"paris",0,null]'
    cp paris.json before
    ends 1 lexicat-file paris.json delete --id hi --lang en
    same paris.json before
    # What only another site has.
    ends 0 lexicat-file paris.json delete --force --now 7 --id hj --lang en
    cells '["hi","en",6,"paris",0,null]' '["hj","en",7,"paris",0,null]'
    tidy
}

# no_log: paris.json has no log; put_back STATE: it is put back, and nothing knows of it.
no_log() { rm -f paris.json.changes; }
put_back() {
    cp "$1" paris.json
    no_log
}

# edited: a site with labels that are older than their source.
edited() {
    site
    echo '{"bye":{"en":"Bye","fr":"Salut"},"hi":{"en":"Hello","fr":"Bonjour"}}' > maps
    lexicat-file paris.json import --now 5 maps
    lexicat-file paris.json put --now 6 --id hi --lang en Hello!
    lexicat-file paris.json put --now 6 --id bye --lang en Bye!
}

# Labels that are right though their source is newer.
confirms() {
    edited
    cp paris.json before
    ends 1 lexicat-file paris.json confirm --lang fr --source en no
    reports 'no: has no label older than its source'
    ends 2 lexicat-file paris.json confirm --lang fr hi
    ends 3 lexicat-file paris.json confirm --lang f --source en
    remedy 4 'refused 4: tag is not well-formed'
    same paris.json before
    ends 0 lexicat-file paris.json confirm --now 7 --lang FR --source=en hi no
    reports 'no: has no label older than its source'
    ends 0 lexicat-file paris.json outdated --lang fr --source en
    prints '{"bye":{"en":"Bye!","fr":"Salut"}}'
    ends 0 lexicat-file paris.json confirm --lang fr --source en
    ends 1 lexicat-file paris.json outdated --lang fr --source en
    ends 1 lexicat-file paris.json confirm --lang fr --source en
    labels '{"bye":{"en":"Bye!","fr":"Salut"},"hi":{"en":"Hello!","fr":"Bonjour"}}'
    tidy
}

# All that was edited here since is taken back; what came from elsewhere stays, also where it
# replaced such an edit.
undoes() {
    local state
    edited
    lexicat-file paris.json confirm --lang fr --source en
    cp paris.json former
    lexicat-file tokyo.json new --site tokyo
    lexicat-file paris.json put --id hi --lang fr Salut
    lexicat-file paris.json put --id hi --lang it Ciao
    lexicat-file paris.json put --id bye --lang fr Adieu
    lexicat-file paris.json delete --id bye --lang en
    lexicat-file paris.json sync tokyo.json
    lexicat-file tokyo.json put --id hi --lang ja x
    lexicat-file tokyo.json put --id bye --lang fr 'Au revoir'
    lexicat-file paris.json sync tokyo.json
    cp paris.json edited
    # (a site that is put back is older than its log)
    no_log
    ends 0 lexicat-file paris.json undo former hi
    labels '{"bye":{"fr":"Au revoir"},"hi":{"en":"Hello!","fr":"Bonjour","ja":"x"}}'
    put_back edited
    jq . former > laid-out
    ends 0 lexicat-file paris.json undo laid-out
    labels '{"bye":{"en":"Bye!","fr":"Au revoir"},"hi":{"en":"Hello!","fr":"Bonjour","ja":"x"}}'
    cp paris.json before
    ends 1 lexicat-file paris.json undo former
    reports 'has no edits of its own since former'
    ends 3 lexicat-file paris.json undo tokyo.json
    reports 'tokyo.json: is not a former state of paris.json'
    ends 3 lexicat-file paris.json undo maps
    remedy 20 'refused 20: shape of document 1'
    ends 4 lexicat-file paris.json undo nowhere
    ends 2 lexicat-file paris.json undo
    same paris.json before
    # A later state is no former one.
    put_back former
    cp former later
    lexicat-file later put --id hi --lang fr Salut
    for state in edited later; do
        ends 3 lexicat-file paris.json undo $state
        reports "$state: is not a former state of paris.json"
    done
    same paris.json former
    # What is taken back can be taken back.
    put_back edited
    lexicat-file paris.json undo former
    ends 0 lexicat-file paris.json undo edited
    labels "$("$LEXICAT" export < edited)"
    tidy
}

# The log has each edit: for each label its lines lead from the first state to the last one, and none
# is there twice.
logged() { # the former site, and the site
    jq -ce . "$2.changes" > /dev/null || fault "a line of $2.changes is no JSON"
    jq -nce --slurpfile was "$1" --slurpfile now "$2" --slurpfile lines "$2.changes" '
        def state(site): reduce site.cells[] as $it ({}; .[$it[:2] | tojson] = $it[2:]);
        reduce ($lines[] | select(length == 6) | .[2:]) as $it (state($was[0]);
            ($it[:2] | tojson) as $key
            | if .[$key] == $it[2] and $it[2] != $it[3] then .[$key] = $it[3] else error($key) end)
        | . == state($now[0])' > said 2>&1 || fault "$2.changes does not lead to $2: $(cat said)"
}

logs() {
    local n it
    site
    cp paris.json empty
    ends 0 lexicat-file paris.json put --now 5 --id hi --lang en Hello
    cp paris.json first
    ends 0 lexicat-file paris.json put --now 6 --id hi --lang en Hi
    ends 0 lexicat-file paris.json put --now 7 --id hi --lang fr Salut
    ends 0 lexicat-file paris.json delete --now 8 --id hi --lang en
    jq -c '.[1:]' paris.json.changes > output
    prints '["put","hi","en",null,[5,"paris",0,["Hello"]]]' \
        '["put","hi","en",[5,"paris",0,["Hello"]],[6,"paris",0,["Hi"]]]' \
        '["put","hi","fr",null,[7,"paris",0,["Salut"]]]' \
        '["delete","hi","en",[6,"paris",0,["Hi"]],[8,"paris",0,null]]'
    jq -e '.[0] | fromdateiso8601 - now | . > -60 and . <= 0' paris.json.changes > said \
        || fault "when: $(cat paris.json.changes)"
    [ "$(stat -c %a paris.json.changes)" = "$(stat -c %a paris.json)" ] || fault 'the mode of the log'
    # What changes nothing or is refused is no edit.
    ends 1 lexicat-file paris.json delete --id hi --lang ja
    ends 3 lexicat-file paris.json put --id @ --lang fr x
    # Others' edits, in both sites, by several at once, and one taken back.
    lexicat-file tokyo.json new --site tokyo
    cp tokyo.json tokyo.first
    lexicat-file tokyo.json put --id 'a"\' --lang ja $'x\ny'
    cp paris.json former
    ends 0 lexicat-file paris.json sync tokyo.json
    tidy
    for n in 1 2 3 4; do
        for it in a b c; do lexicat-file paris.json put --id "m-$it" --lang fr "$n"; done &
    done
    wait
    ends 0 lexicat-file paris.json undo former
    jq . paris.json > laid-out && cp laid-out paris.json
    ends 0 lexicat-file paris.json put --id hi --lang fr Bonjour
    logged empty paris.json
    logged tokyo.first tokyo.json
    # (one more for the exchange)
    [ "$(wc -l < paris.json.changes)" = 22 ] || fault "$(wc -l < paris.json.changes) lines"
    # The history of a message is shown.
    ends 0 lexicat-file paris.json log hi fr
    sed 's/^....-..-.. ..:..  //' output > shown
    cp shown output
    prints 'put: "hi" fr: nothing -> "Salut", by paris' 'put: "hi" fr: "Salut" -> "Bonjour", by paris'
    ends 1 lexicat-file paris.json log hi ja
    # One line is taken back, as docs/RECIPES.md has it.
    tail -n 1 paris.json.changes > line
    jq -c '.[2:] | . as [$id, $lang, $was, $now] | ($now, $was)
        | {($id): (if .[3] then {($lang): .[3]} else {} end)}' line > maps
    FROM=maps ends 0 lexicat-file paris.json update
    lexicat-file paris.json lookup --id hi fr > output
    prints 'matched fr ["Salut"]'
    tidy
}

# Lines that are older than they are kept go, but for the last edit of each site.
old_lines() {
    site
    ends 0 lexicat-file paris.json put --now 5 --id a --lang en old
    ends 0 lexicat-file paris.json put --now 6 --id b --lang en older
    sed -i 's/^\["20../["2001/' paris.json.changes
    ends 0 lexicat-file --keep 30 paris.json put --now 7 --id c --lang en new
    jq -c '[.[0][:4] == "2001", .[2]]' paris.json.changes > output
    prints '[true,"b"]' '[false,"c"]'
    ends 2 lexicat-file --keep soon paris.json status
    tidy
}

# A log that is none is left alone, and stops no edit.
no_logs() {
    local it
    site
    : > elsewhere
    for it in 'ln -s elsewhere' mkdir mkfifo; do
        rm -rf paris.json.changes
        $it paris.json.changes
        ends 0 lexicat-file paris.json put --id hi --lang fr "$it"
        reports 'the edit was made, but is not in the log'
        lexicat-file paris.json lookup --id hi fr > output
        prints "matched fr [\"$it\"]"
    done
    [ ! -s elsewhere ] || fault 'a link is followed'
    # What an exchange overrides is told then, with both texts.
    lexicat-file tokyo.json new --site tokyo
    lexicat-file tokyo.json put --id hi --lang fr Salut --now 9999999999999 --force
    ends 0 lexicat-file paris.json sync tokyo.json --no-limit
    reports 'paris.json: 1 text of this site was overridden by later edits, and no log has it:' \
        'message "hi" in fr: "mkfifo" was overridden by "Salut"'
    tidy
}

# An offline edit that loses is known: it is counted, shown with both texts, and put back.
overridden() {
    site
    lexicat-file tokyo.json new --site tokyo
    lexicat-file paris.json put --now 5 --id hi --lang en Hello
    lexicat-file paris.json sync tokyo.json
    lexicat-file paris.json put --now 6 --id hi --lang en 'Hello of Paris'
    lexicat-file paris.json put --now 6 --id bye --lang en Bye
    lexicat-file tokyo.json put --now 7 --id hi --lang en 'Hello of Tokyo'
    lexicat-file tokyo.json put --now 7 --id new --lang en New
    ends 1 lexicat-file paris.json conflicts
    ends 0 lexicat-file paris.json sync tokyo.json
    reports 'paris.json: 1 text of this site was overridden by later edits'
    ends 1 lexicat-file tokyo.json conflicts
    ends 0 lexicat-file paris.json conflicts
    sed 's/([^,]*)$/(..)/; s/, 1970.*)/, ..)/' output > shown
    cp shown output
    prints 'message "hi" in en' '    yours:  "Hello of Paris" (..)' \
        '    theirs: "Hello of Tokyo" (tokyo, ..)'
    # A later exchange that overrides nothing leaves it to --since.
    ends 0 lexicat-file paris.json sync tokyo.json
    sleep 1.1
    lexicat-file tokyo.json put --now 8 --id new --lang en Newer
    ends 0 lexicat-file paris.json sync tokyo.json
    ends 1 lexicat-file paris.json conflicts
    ends 0 lexicat-file paris.json conflicts --since 2001-01-01
    ends 1 lexicat-file paris.json conflicts --since 2999-01-01
    ends 2 lexicat-file paris.json conflicts --since yesterday
    ends 1 lexicat-file paris.json conflicts --mine bye en
    ends 0 lexicat-file paris.json conflicts --mine hi EN --now 9
    lexicat-file paris.json lookup --id hi en > output
    prints 'matched en ["Hello of Paris"]'
    ends 1 lexicat-file paris.json conflicts --since 2001-01-01
    # A delta tells it too.
    lexicat-file tokyo.json put --now 10 --id hi --lang en 'Tokyo again'
    lexicat-file paris.json summary > summary
    lexicat-file tokyo.json delta summary > delta
    ends 0 lexicat-file paris.json take delta
    reports 'paris.json: 1 text of this site was overridden by later edits'
    ends 0 lexicat-file paris.json conflicts
    tidy
}

# A site that was put back to a copy is noticed at its next edit, and restored in one line.
put_back_sites() {
    site
    lexicat-file tokyo.json new --site tokyo
    lexicat-file paris.json put --now 5 --id hi --lang en Hello
    lexicat-file paris.json sync tokyo.json
    cp paris.json backup.json
    lexicat-file paris.json put --now 6 --id hi --lang en 'Hello!'
    lexicat-file paris.json sync tokyo.json
    cp backup.json paris.json
    for it in 'put --id a --lang en x' 'sync tokyo.json' 'merge tokyo.json' 'delta summary'; do
        lexicat-file tokyo.json summary > summary
        # shellcheck disable=SC2086
        ends 3 lexicat-file paris.json $it
        reports 'paris.json: is older than its log'
        reports 'lexicat-file NEW.json restore paris.json --site NAME OTHER..'
    done
    same paris.json backup.json
    ends 1 lexicat-file paris.json doctor
    grep -q '^FAULT: to go on, make a site with a new name' output || fault "$(cat output)"
    # Nor is a site of that name made anew.
    mv paris.json away
    ends 3 lexicat-file paris.json new --site paris
    reports 'there was a site of this name, whose edits are in'
    mv away paris.json
    # Without its log, what another site has of it shows it.
    rm paris.json.changes
    ends 3 lexicat-file paris.json sync tokyo.json
    remedy 30 'refused 30: an edit of this site is missing here in row 0 of document 2'
    reports 'tokyo.json, message "hi" in en: this site made that edit, and lacks it'
    ends 0 lexicat-file paris-2.json restore paris.json --site paris-2 tokyo.json
    reports 'paris-2.json: is site paris-2 now, with 1 label'
    labels '{"hi":{"en":"Hello!"}}' paris-2.json
    ends 0 lexicat-file paris-2.json put --id hi --lang fr Salut
    ends 0 lexicat-file paris-2.json sync tokyo.json
    ends 3 lexicat-file paris-2.json restore paris.json --site paris-3
    reports 'is there already'
    ends 2 lexicat-file paris-3.json restore paris.json
    ends 0 lexicat-file paris-2.json doctor
    grep -q '^last exchange, tokyo: ' output || fault "$(cat output)"
    tidy
}

# A time of more than a day ahead of the clock is asked for.
ahead() {
    local day=86400000 now=1764000000000
    site
    export CLOCK=$now
    ends 3 lexicat-file paris.json put --now $((now + day + 1)) --id hi --lang en x
    reports 'is more than a day ahead of the clock'
    ends 0 lexicat-file paris.json put --now $((now + day)) --id hi --lang en x
    ends 0 lexicat-file paris.json put --force --now $((now + 3 * day)) --id hi --lang en y
    ends 1 lexicat-file paris.json doctor
    grep -q '^FAULT: an edit is more than a day ahead' output || fault "$(cat output)"
    ends 0 lexicat-file paris.json put --now $((now + 1)) --id hi --lang en -- --force
    # What is behind -- is a text.
    ends 0 lexicat-file paris.json put --now $((now + 2)) --id hi --lang en -- --now $((now + 9 * day))
    ends 0 lexicat-file paris.json put --now $((now + 3)) --id hi --lang en -- --lang english
    [ ! -s errors ] || fault "$(cat errors)"
}

# A label whose texts read like a row is none.
like_rows() {
    site
    echo '{"a":{"fr":["hi","en","c","d","e","f"]}}' > maps
    ends 0 lexicat-file paris.json import maps --now 5
    ends 0 lexicat-file paris.json put --now 6 --id hi --lang en Hello
    cp paris.json former
    ends 0 lexicat-file paris.json put --now 7 --id hi --lang en Hi
    cp former paris.json
    ends 3 lexicat-file paris.json put --now 8 --id hi --lang en x
    reports 'paris.json: is older than its log'
}

try 'deletions' deletions
try 'labels that are confirmed' confirms
try 'edits that are taken back' undoes
try 'a log of edits' logs
try 'lines of a log that are old' old_lines
try 'texts that another site overrode' overridden
try 'a site that was put back' put_back_sites
try 'times that are ahead of the clock' ahead
try 'texts that read like a row' like_rows
try 'a log that is none' no_logs
end
