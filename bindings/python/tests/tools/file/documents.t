#!/usr/bin/env bash
# shellcheck disable=SC2016,SC2034,SC2086,SC2154
# Tries lexicat-file with documents in files and on standard input, with merges, and with
# times of more than a day ahead of the clock. The rows are those of docs/COMMAND.md. It takes and
# needs what bindings/python/tests/tools/lib.sh says.
cd "$(dirname "$0")/../../../../.." || exit 1
. bindings/python/tests/tools/file/site.sh

# documents: two language maps, as a file and laid out on several lines, and the site of tokyo.
documents() {
    site
    lexicat-file tokyo.json new --site tokyo
    echo '{"m":{"en":"Hello","fr":"Salut"}}' > maps
    jq . maps > old
    sed 's/Salut/Bonjour/' old > new
}

maps_in_files() {
    documents
    ends 0 lexicat-file paris.json import maps --now 5
    labels '{"m":{"en":"Hello","fr":"Salut"}}'
    echo '{"n":{"de":"Hallo"}}' > 'a file'
    ends 0 lexicat-file paris.json import --now=6 -- 'a file'
    FROM=maps ends 0 lexicat-file paris.json import -
    ends 0 lexicat-file paris.json import <(echo '{"o":{"en":"x"}}')
    labels '{"m":{"en":"Hello","fr":"Salut"},"n":{"de":"Hallo"},"o":{"en":"x"}}'
    # What was laid out on several lines is read as it is meant.
    ends 0 lexicat-file paris.json update old new
    labels '{"m":{"en":"Hello","fr":"Bonjour"},"n":{"de":"Hallo"},"o":{"en":"x"}}'
    FROM=old ends 0 lexicat-file paris.json update new -
    labels '{"m":{"en":"Hello","fr":"Salut"},"n":{"de":"Hallo"},"o":{"en":"x"}}'
    cat maps new > both
    FROM=both ends 0 lexicat-file paris.json update -
    labels '{"m":{"en":"Hello","fr":"Bonjour"},"n":{"de":"Hallo"},"o":{"en":"x"}}'
    tidy
}

# A summary, a delta, and a later state.
exchange() {
    documents
    lexicat-file paris.json import maps
    ends 0 lexicat-file tokyo.json summary
    jq . output > summary
    ends 0 lexicat-file paris.json delta summary
    jq . output > 'a delta'
    FROM=summary ends 0 lexicat-file paris.json delta
    [ "$(jq -c . 'a delta')" = "$(cat output)" ] || fault "two deltas"
    ends 0 lexicat-file tokyo.json take 'a delta'
    labels '{"m":{"en":"Hello","fr":"Salut"}}' tokyo.json
    ends 1 lexicat-file tokyo.json changes paris.json
    grep -qx 'changes 0' output || fault "$(cat output)"
    tidy
}

# A site that was laid out, or lost its last line feed, is taken by each command.
other_forms() {
    local form it
    documents
    lexicat-file paris.json import --now 5 maps
    lexicat-file tokyo.json put --now 6 --id m --lang ja x
    lexicat-file tokyo.json summary > summary
    lexicat-file paris.json summary > own
    lexicat-file tokyo.json delta own > 'a delta'
    mkdir kept
    cp paris.json tokyo.json kept
    for form in 'head -c -1' 'jq .'; do
        for it in 'import maps' 'update old new' 'take a\ delta' 'sync tokyo.json' 'merge tokyo.json' \
            'delta summary' 'changes tokyo.json' 'put --id m --lang fr y' status summary; do
            cp kept/*.json .
            $form kept/paris.json > paris.json
            rm -f ./*.changes
            eval "ends 0 lexicat-file paris.json $it"
            "$LEXICAT" status < paris.json > output 2> errors || fault "$form, $it: $(cat errors)"
        done
    done
    tidy
}

refused_documents() {
    documents
    lexicat-file paris.json import maps
    lexicat-file tokyo.json summary > summary
    lexicat-file paris.json delta summary > 'a delta'
    cp paris.json before
    # An LF within a text is no JSON, and stays none.
    printf '{"m":{"fr":"Bon\njour"}}' > broken
    ends 3 lexicat-file paris.json update broken new
    remedy 19 'refused 19: not JSON of document 2'
    reports 'broken: line 1, column '
    : > empty
    ends 3 lexicat-file paris.json import empty
    remedy 19 'refused 19: not JSON of document 2'
    reports 'empty: it is empty'
    ends 3 lexicat-file paris.json take maps
    remedy 20 'refused 20: shape of document 2'
    ends 3 lexicat-file paris.json put --id @x --lang en x
    remedy 10 'refused 10: message id'
    ends 3 lexicat-file paris.json lookup --id x 'e n'
    remedy 9 'refused 9: field element at 0'
    ends 4 lexicat-file paris.json import nowhere
    reports 'nowhere: no such file'
    ends 4 lexicat-file paris.json import .
    ends 4 lexicat-file paris.json import ''
    ends 4 lexicat-file paris.json delta nowhere
    ends 2 lexicat-file paris.json import maps new
    ends 2 lexicat-file paris.json update old
    ends 2 lexicat-file paris.json update old new maps
    ends 2 lexicat-file paris.json take --now 5 'a delta'
    ends 2 lexicat-file paris.json import --now
    ends 2 lexicat-file paris.json import --now 5 --now 6 maps
    ends 2 lexicat-file paris.json import --now= maps
    same paris.json before
    tidy
}

# a_site NAME CELL..: the file of a site with these cells.
a_site() {
    local name=$1 cells
    shift
    cells=$(IFS=,; echo "$*")
    echo "{\"cells\":[$cells],\"kind\":\"site\",\"site\":\"$name\",\"version\":2}" > "$name.json"
}

# three_sites: paris, tokyo and oslo, and a copy of each in the folder kept.
three_sites() {
    a_site paris '["m","en",5,"paris",0,["a"]]'
    a_site tokyo '["m","en",7,"tokyo",0,["b"]]'
    a_site oslo '["n","en",6,"oslo",0,null]'
    mkdir kept
    cp ./*.json kept
}
merged=('["m","en",7,"tokyo",0,["b"]]' '["n","en",6,"oslo",0,null]')

# unchanged FILE..: each is as its copy in the folder kept.
unchanged() {
    local file
    for file; do same "$file" "kept/$file"; done
}

merges() {
    local name
    three_sites
    ends 0 lexicat-file paris.json merge tokyo.json oslo.json
    cells "${merged[@]}"
    unchanged tokyo.json oslo.json
    cp kept/paris.json .
    jq . kept/tokyo.json > 'tokyo laid out'
    ends 0 lexicat-file paris.json merge --not-after 7 oslo.json 'tokyo laid out'
    cells "${merged[@]}"

    # What is too large for one input is merged by two.
    cp kept/paris.json .
    for name in tokyo oslo; do
        head -c 40000000 /dev/zero | tr '\0' ' ' >> $name.json
    done
    ends 0 lexicat-file paris.json merge tokyo.json oslo.json
    cells "${merged[@]}"
    cp kept/paris.json kept/tokyo.json kept/oslo.json .

    tidy
}

# All is merged, or nothing.
refused_merges() {
    three_sites
    echo '{}' > none.json
    ends 3 lexicat-file paris.json merge tokyo.json none.json
    remedy 20 'refused 20: shape of document 3'
    reports 'paris.json is as it was: it is document 1, and tokyo.json document 2'
    ends 3 lexicat-file paris.json merge oslo.json tokyo.json --not-after 6
    remedy 29 'refused 29: time is ahead in row 0 of document 3'
    reports 'it is document 1, and oslo.json document 2'
    : > nothing.json
    ends 3 lexicat-file paris.json merge tokyo.json nothing.json oslo.json
    remedy 19 'refused 19: not JSON of document 3'
    lexicat-file 'a site' new --site none
    ends 3 lexicat-file 'a site' merge none.json
    remedy 20 'refused 20: shape of document 2'
    ends 4 lexicat-file paris.json merge tokyo.json nowhere.json
    ends 2 lexicat-file paris.json merge
    ends 2 lexicat-file paris.json merge tokyo.json --no-limit --not-after 7
    unchanged paris.json tokyo.json oslo.json

    a_site paris '["m","en",5,"x",0,["a"]]'
    a_site tokyo
    a_site oslo '["m","en",5,"x",0,["c"]]'
    cp paris.json kept
    ends 3 lexicat-file paris.json merge tokyo.json oslo.json
    remedy 13 'refused 13: stamp 5 x 0 used twice, cell 0'
    unchanged paris.json
    tidy
}

# Two files of one site, the likeliest of which is a copy that was edited.
copies() {
    local way
    three_sites
    cp paris.json laptop.json
    lexicat-file laptop.json put --id laptop --lang en x
    cp laptop.json kept
    for way in 'sync laptop.json' 'merge tokyo.json laptop.json' 'merge paris.json'; do
        ends 3 lexicat-file paris.json $way
        reports 'are both site paris'
        reports 'lexicat-file NEW new --site NAME'
    done
    ends 3 lexicat-file oslo.json merge laptop.json paris.json
    reports 'laptop.json and paris.json are both site paris'
    unchanged paris.json laptop.json
    # What is said to do does it.
    lexicat-file new.json new --site paris-laptop
    ends 0 lexicat-file new.json merge laptop.json
    ends 3 lexicat-file paris.json sync new.json
    reports 'refused 30: an edit of this site is missing here in row 0 of document 2'
    ends 0 lexicat-file paris.json sync --no-check-own new.json
    jq -e '.cells | map(.[0]) | index("laptop")' paris.json > output || fault "not mended"
    tidy
}

# Times of more than a day ahead of the clock, which no command takes back, are let in by no door.
limits() {
    local way limit hour=3600000 now=1764000000000
    site
    lexicat-file tokyo.json new --site tokyo
    export CLOCK=$now
    lexicat-file tokyo.json put --force --now $((now + 25 * hour)) --id m --lang en x
    lexicat-file paris.json summary > paris.summary
    lexicat-file tokyo.json delta paris.summary > paris.delta
    mkdir kept
    cp ./*.json kept
    for way in 'take paris.delta' 'sync tokyo.json' 'merge tokyo.json'; do
        ends 3 lexicat-file paris.json $way
        remedy 29 'refused 29: time is ahead in row 0 of document 2'
        reports ', message "m" in en: its time, '
        # (a clock that was never set)
        CLOCK=0 ends 3 lexicat-file paris.json $way
        ends 3 lexicat-file paris.json $way --not-after $((now + 25 * hour - 1))
    done
    unchanged paris.json tokyo.json
    for way in 'take paris.delta' 'sync tokyo.json' 'merge tokyo.json'; do
        for limit in "--not-after=$((now + 25 * hour))" --no-limit; do
            cp kept/paris.json .
            ends 0 lexicat-file paris.json $way "$limit"
            labels '{"m":{"en":"x"}}'
        done
        cp kept/paris.json .
        CLOCK=$((now + hour)) ends 0 lexicat-file paris.json $way
        labels '{"m":{"en":"x"}}'
    done
    ends 2 lexicat-file paris.json sync tokyo.json --not-after soon
    # (an empty variable is not the wish for no limit)
    ends 2 lexicat-file paris.json sync tokyo.json --not-after=
    ends 2 lexicat-file paris.json sync tokyo.json --not-after ''
    ends 2 lexicat-file paris.json import --no-limit maps
    tidy
}

try 'language maps in files and on standard input' maps_in_files
try 'an exchange by documents' exchange
try 'a site in another form' other_forms
try 'documents that are refused' refused_documents
try 'merges' merges
try 'merges that are refused' refused_merges
try 'two files of one site' copies
try 'times ahead of the clock' limits
end
