#!/usr/bin/env bash
# shellcheck disable=SC2016,SC2034,SC2154
# Tries what lexicat-check finds in sites: placeholders, blanks and lengths, as the
# manual has them; its statuses, and what it prints. Mutated documents are refused or checked: it
# fails in no other way. It takes and needs what bindings/python/tests/tools/check/site.sh says.
cd "$(dirname "$0")/../../../../.." || exit 1
. bindings/python/tests/tools/check/site.sh

# Placeholders, blanks and lengths of a site, in the order of messages and languages.
findings() {
    site
    imports 5 '{"ask":{"en":"Name: ","de":"Name:","fr":" Nom : ","ja":"\u3000名前: "},
        "bye":{"en":"Bye\n","de":"Tschüss\r\n","fr":"Au revoir"},
        "crlf":{"en":"a\r\nb\r\n","de":"a\nb\n"},
        "empty":{"en":"Hello {name}","de":""},
        "files":{"en":["%d file","%d files"],"fr":["un fichier","fichiers"],"ja":"%s"},
        "hi":{"en":"Hello {name}","de":"Hallo {name}","fr":"Salut {nom}"},
        "menu":{"en":"Open","de":"Öffnen","fr":"Ouvrir","x-note":"in the menu\nmax 5"},
        "none":{"de":"{x} ohne Quelle"},
        "note":{"en":"{a}","de":"b","x-note":"{c} ","x-note-de":"max 1",
            "x-flags":"no-python-brace-format"},
        "own":{"en":"Open","de":"Öffnen","fr":"Ouvrir","x-note":"\tMAX  6 \r\nmax 60",
            "x-note-fr":"max 5"},
        "wide":{"en":"abcdef","fr":"été😀é","x-note":"maximum 1\nmax 5 or so\nmax 5x\nmax 5"}}'
    FROM=site.json ends 1 lexicat-check --source en
    prints '"ask" de: ends with "", and the source with " "' \
        '"ask" fr: begins with " ", and the source with ""' \
        '"bye" fr: ends with "", and the source with "\n"' \
        '"files" fr: text 2 lacks %d' \
        '"files" ja: lacks %d' \
        '"files" ja: has %s, and the source has not' \
        '"hi" fr: lacks {name}' \
        '"hi" fr: has {nom}, and the source has not' \
        '"menu" de: has 6 characters, and its note allows 5' \
        '"menu" fr: has 6 characters, and its note allows 5' \
        '"own" fr: has 6 characters, and its note allows 5' \
        '"wide" en: has 6 characters, and its note allows 5'
    cp output all
    ends 1 lexicat-check --source en site.json
    cmp -s output all || fault 'a file is read in another way than standard input'
    ends 1 lexicat-check --source EN --lang DE --only blanks site.json
    prints '"ask" de: ends with "", and the source with " "'
    ends 1 lexicat-check --only lengths --source en --lang en site.json
    prints '"wide" en: has 6 characters, and its note allows 5'
    ends 1 lexicat-check --only placeholders --source en --lang=ja site.json
    prints '"files" ja: lacks %d' '"files" ja: has %s, and the source has not'
    ends 0 lexicat-check --source en --lang pt site.json
    [ ! -s output ] || fault "$(cat output)"
    # Another source: what it lacks itself is not looked at, and lengths are looked at in each.
    ends 1 lexicat-check --source de --only lengths site.json
    [ "$(wc -l < output)" = 4 ] || fault "lengths are of the source: $(cat output)"
    # What was put right is found no more.
    lexicat-file site.json put --id hi --lang fr 'Salut {name}'
    ends 1 lexicat-check --source en site.json
    diff all output | grep -v '^[<>] "hi" fr' | grep '^[<>]' && fault 'another label is found'
    grep -q '^"hi"' output && fault 'what is right is found'
    ends 3 lexicat-check --source pt site.json
    reports 'lexicat-check: no label is in pt, so nothing is compared'
}

# Statuses, and what is written where.
manners() {
    local it
    site
    imports 5 '{"a":{"en":"{x}","de":"y"}}'
    ends 0 lexicat-check --help
    [ "$(sed -n 1p output)" = \
        'Usage: lexicat-check --source LANG [--lang LANG] [--only KIND] [SITE]' ] \
        || fault 'no help'
    for it in '' '--source' '--source ä' '--source en --only commas' '--source en a b' \
        '--sour en' '--source en --lang' '--source en -x'; do
        # shellcheck disable=SC2086
        ends 2 lexicat-check $it
        [ "$(wc -l < errors)" = 1 ] && grep -q 'see lexicat-check --help$' errors \
            || fault "usage: $(cat errors)"
    done
    ends 4 lexicat-check --source en nowhere.json
    reports 'lexicat-check: nowhere.json: No such file or directory'
    ends 4 lexicat-check --source en .
    ends 4 sh -c 'lexicat-check --source en <&-'
    ends 4 sh -c 'lexicat-check --source en site.json >&-'
    ends 4 sh -c 'lexicat-check --source en site.json > /dev/full'
    reports 'lexicat-check: standard output: No space left on device'
    echo '{"kind":"site"}' > none.json
    ends 3 lexicat-check --source en none.json
    grep -qx "$("$LEXICAT" export < none.json 2>&1)" errors || fault "$(cat errors)"
    grep -q '^what to do: ' errors || fault "no remedy: $(cat errors)"
    ends 3 lexicat-check --source en /dev/null
    ln -s "$LEXICAT" lexicat
    LEXICAT='' PATH=$PWD:$PATH ends 1 lexicat-check --source en site.json
    LEXICAT=./nowhere ends 127 lexicat-check --source en site.json
    LEXICAT=/bin/true ends 4 lexicat-check --source en site.json
    reports 'lexicat-check: what /bin/true printed are no labels'
    # (a link to the site is followed, and nothing is left beside it)
    ln -s site.json link.json
    ends 1 lexicat-check --source en link.json
    prints '"a" de: lacks {x}'
}

empty() {
    site
    ends 0 lexicat-check --source en site.json
    prints ''
}

# Ids that strangers may have chosen.
strangers() {
    local long
    site
    long=$(jq -nr '"é" * 64')
    jq -nc --arg long "$long" '{"__proto__": {en: "{x}", de: "y"},
        "constructor": {en: "a", de: "{x}"},
        "=1+1\"\\": {en: "%s", de: "%d"}, "\u202e\u2028x": {en: "<b>x</b>", de: "x"},
        ($long): {en: "{x}", "@none": " "}, "z": {en: " ", de: "\u2028 "}}' > maps
    lexicat-file site.json import --now 5 maps
    FROM=site.json ends 1 lexicat-check --source en
    prints '"=1+1\"\\" de: lacks %s' '"=1+1\"\\" de: has %d, and the source has not' \
        '"__proto__" de: lacks {x}' '"constructor" de: has {x}, and the source has not' \
        '"z" de: begins with "", and the source with " "' \
        "\"$long\" @none: lacks {x}" \
        "\"$long\" @none: begins with \" \", and the source with \"\"" \
        "\"$long\" @none: ends with \" \", and the source with \"\"" \
        '"\u202e\u2028x" de: lacks <b> </b>'
}

# Mutated documents are refused or checked.
mutations() {
    site
    jq -nc '{hi: {en: "Hello {name}", de: "Hallo {nam}"}, n: {en: ["%d a", "%d b"], fr: "%s\n"},
        m: {en: "<b>x</b>", ja: " x", "x-note": "max 1"}}' | lexicat-file site.json import --now 5
    ends 1 lexicat-check --source en site.json
    /usr/bin/python3 "$own/mutations.py" > said 2> faulty \
        || fault "a mutated document has it fail: $(tail -n 5 faulty)"
    says "$(tail -n 1 said)"
}

says_seed
try 'placeholders, blanks and lengths' findings
try 'statuses, and what is written where' manners
try 'an empty site' empty
try 'ids of strangers' strangers
try 'mutated documents' mutations
end
