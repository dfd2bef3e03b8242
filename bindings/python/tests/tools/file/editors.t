#!/usr/bin/env bash
# shellcheck disable=SC2016,SC2034,SC2154
# Tries lexicat-edit with editors, alone and at once, of which some leave faulty files.
# It takes and needs what bindings/python/tests/tools/lib.sh says.
cd "$(dirname "$0")/../../../../.." || exit 1
. bindings/python/tests/tools/file/site.sh
unset VISUAL

# an_editor TEXT: the program that lexicat-edit opens; it gets the file's name.
an_editor() {
    a_program editor "$1"
    export EDITOR=$PWD/programs/editor
}

# three_messages: a site, and a copy of it.
three_messages() {
    site
    echo '{"bye":{"en":"Bye"},"hi":{"en":"Hello","fr":"Salut"},"n":{"en":["file","files"]}}' > maps
    lexicat-file paris.json import --now 5 < maps
    cp paris.json before
}

shown() {
    three_messages
    an_editor 'cp "$1" seen'
    ends 0 lexicat-edit paris.json
    reports 'nothing is changed'
    [ "$(jq -c . seen)" = "$(cat maps)" ] || fault "shown is $(cat seen)"
    ends 0 lexicat-edit paris.json FR
    [ "$(jq -c . seen)" = '{"bye":{"fr":null},"hi":{"fr":"Salut"},"n":{"fr":null}}' ] \
        || fault "shown is $(cat seen)"
    ends 0 lexicat-edit --missing fr paris.json en
    [ "$(jq -c . seen)" = '{"bye":{"en":"Bye","fr":null},"n":{"en":["file","files"],"fr":null}}' ] \
        || fault "shown is $(cat seen)"
    ends 1 lexicat-edit --missing=en paris.json
    ends 2 lexicat-edit
    ends 3 lexicat-edit paris.json e
    ends 4 lexicat-edit tokyo.json
    an_editor 'exit 1'
    ends 4 lexicat-edit paris.json
    same paris.json before
    tidy
}

# The site is as it was, the fault is named, and the text is kept.
broken_files() {
    local text
    three_messages
    an_editor 'sed -i "3s/:/=/" "$1"'
    ends 3 lexicat-edit paris.json
    reports 'refused 19: not JSON of document 3'
    reports 'your text: line 3'
    reports 'edit again?'
    text=$(sed -n 's/.* \([^ ]*labels.json\)$/\1/p' errors)
    grep -q '"en"=' "$text" || fault "the text is lost"
    remedy 19 'refused 19: not JSON of document 3'
    # The command that is printed passes on what was mended by hand, whatever the site is called.
    mv paris.json "it's \$PWD.json"
    ends 3 lexicat-edit "it's \$PWD.json"
    text=$(sed -n 's/.* \([^ ]*labels.json\)$/\1/p' errors)
    sed -i 's/=/:/; s/Bye/Goodbye/' "$text"
    eval "$(sed -n 's/^    //p' errors)" || fault "the text is not passed on"
    mv "it's \$PWD.json" paris.json
    ends 0 lexicat-file paris.json lookup --id bye en
    prints 'matched en ["Goodbye"]'
    cp before paris.json
    an_editor 'sed -i "s/fr/f/" "$1"'
    ends 3 lexicat-edit paris.json
    remedy 4 'refused 4: tag is not well-formed in row 1 of document 3'
    reports 'your text, message "hi": tag is not well-formed'
    for text in '' ' ' '\357\273\277'; do
        an_editor "printf '$text\n' > \"\$1\""
        ends 3 lexicat-edit paris.json
        reports 'your text is empty'
    done
    an_editor 'rm "$1"'
    ends 4 lexicat-edit paris.json
    reports 'left no text'
    ends 3 lexicat-edit paris.json en f_r
    remedy 3 'refused 3: subtag at 0'
    reports 'not a language tag: f_r'
    same paris.json before
    # A second try mends it.
    echo y > yes
    an_editor 'if [ -e tried ]; then sed -i "s/\"f\"/\"nb\"/" "$1"
else touch tried; sed -i "s/\"fr\"/\"f\"/" "$1"; fi'
    FROM=yes ends 0 lexicat-edit paris.json
    prints '["hi","fr",null]' '["hi","nb",["Salut"]]'
    rm -rf "$TMPDIR"/lexicat-edit.*
    tidy
}

# A byte order mark is no change, and no fault.
marks_of_bytes() {
    three_messages
    an_editor 'sed -i "1s/^/\xEF\xBB\xBF/" "$1"'
    ends 0 lexicat-edit paris.json
    reports 'nothing is changed'
    an_editor 'sed -i "1s/^/\xEF\xBB\xBF/; s/Bye/Goodbye/" "$1"'
    ends 0 lexicat-edit paris.json
    prints '["bye","en",["Goodbye"]]'
    tidy
}

edits() {
    three_messages
    an_editor 'sed -i "s/null/\"Ciao\"/; s/\"Bye\"/null/" "$1"'
    ends 0 lexicat-edit paris.json it en
    prints '["bye","en",null]' '["bye","it",["Ciao"]]' '["hi","it",["Ciao"]]' '["n","it",["Ciao"]]'
    "$LEXICAT" export < paris.json > labels
    jq -c '.bye, .hi, .n' labels > output
    prints '{"it":"Ciao"}' '{"en":"Hello","fr":"Salut","it":"Ciao"}' \
        '{"en":["file","files"],"it":"Ciao"}'
    # What somebody else made of a label meanwhile is shown where it is replaced.
    an_editor 'lexicat-file paris.json put --id hi --lang it Meanwhile; sed -i "s/Ciao/Salve/" "$1"'
    ends 0 lexicat-edit paris.json it
    prints '["bye","it",["Salve"]]' '["hi","it",["Salve"],["Meanwhile"]]' '["n","it",["Salve"]]'
    tidy
}

# Each edits after the other has opened the labels, one label is edited by both.
two_at_once() {
    three_messages
    an_editor 'touch open-$ME; while [ ! -e open-a ] || [ ! -e open-b ]; do sleep 0.05; done
sed -i "s/\"Hello\"/\"Hello of $ME\"/; s/\"fr\": \"Salut\"/&, \"x-$ME\": \"X\"/" "$1"'
    ME=a lexicat-edit paris.json > output-a 2> errors &
    ME=b lexicat-edit paris.json > output-b 2> errors-b
    wait
    "$LEXICAT" export < paris.json \
        | jq -e '.hi | .["x-a"] == "X" and .["x-b"] == "X" and .fr == "Salut"' > output \
        || fault "of two at once an edit is lost: $("$LEXICAT" export < paris.json)"
    jq -s 'map(select(.[1] == "en")) | length' output-a output-b > output
    prints 2
    tidy
}

try 'what an editor is shown' shown
try 'broken files' broken_files
try 'a byte order mark' marks_of_bytes
try 'edits' edits
try 'two editors at once' two_at_once
end
