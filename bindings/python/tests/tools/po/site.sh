# shellcheck shell=bash disable=SC2034,SC2154
# What the tests of lexicat-po share. They are rounds of a translator: a site goes out as
# a PO file, the tools of gettext read and edit that file, and what comes back is passed to the
# site. Where nothing was edited no byte of the site changes, and else just the cells that were.
# Files that go out are read by msgfmt, by Python's own reader of .mo files and by msgattrib, never
# by lexicat-po; what they have to hold is what was put into the site.
#
# Beside what bindings/python/tests/tools/lib.sh says they need gettext. Real catalogues are those below
# /usr/share/locale, or the folder that LOCALES names.
. bindings/python/tests/tools/lib.sh
needs msgfmt msgattrib msgcat msgfilter msginit msgmerge msgunfmt xgettext
LOCALES=${LOCALES:-/usr/share/locale}
own=$PWD/bindings/python/tests/tools/po

# site: an empty site of lyon.
site() {
    rm -f site.json site.json.changes
    new_site site.json lyon
}

# reports LINE..: the last command wrote these lines to standard error, and no other.
reports() {
    [ "$(cat errors)" = "$(printf 'lexicat-po: %s\n' "$@")" ] \
        || fault "wanted '$*' on standard error, not '$(cat errors)'"
}

# put TIME ID LANGUAGE TEXT..
put() {
    local now=$1 id=$2 lang=$3
    shift 3
    lexicat-file site.json put --now "$now" --id "$id" --lang "$lang" -- "$@"
}

# out FILE: the German of the site goes out, and msgfmt takes it without a word.
out() {
    FROM=site.json ends "${2:-0}" lexicat-po out --lang de --source en
    mv output "$1"
    msgfmt --check -o /dev/null "$1" > said 2>&1 || fault "msgfmt refuses $1: $(cat said)"
    [ ! -s said ] || fault "msgfmt says of $1: $(cat said)"
}

# passed_on FILE SENT [STATUS]: what came back is made edits of; the keys that changed are in keys.
passed_on() {
    cp site.json was.json
    ends "${3:-0}" lexicat-po in --lang de --source en --sent "$2" site.json "$1"
    lexicat-file site.json update --now 100 < output || fault "update refuses"
    jq -nc --slurpfile was was.json --slurpfile now site.json \
        '($now[0].cells - $was[0].cells)[] | [.[0], .[1], .[5]]' > keys
}

# changed_keys LINE..: these cells were changed by the last round, and no other.
changed_keys() {
    [ "$(cat keys)" = "$(printf '%s\n' "$@")" ] || fault "wanted the edits '$*', not '$(cat keys)'"
}

# texts_of FILE: its entries as msgfmt writes them and Python reads them, a line of JSON each.
texts_of() {
    msgfmt -o read.mo "$1"
    /usr/bin/python3 "$own/texts.py" read.mo
}

# The language tag of a locale: pt-br of pt_BR, sr-latn of sr@latin.
tag_of() {
    echo "$1" | sed 's/_/-/; s/@latin/-latn/; s/@cyrillic/-cyrl/; s/@/-/' \
        | tr '[:upper:]' '[:lower:]'
}

# quoted: ids that programs for XLIFF unquote.
quoted() {
    local id
    for id in Currently: '50%: a:3' '%3A:' a/b:c: a:12 100%25 'a+b c' '%' :; do
        put 5 "$id" en "The text of $id"
        put 5 "$id" de "Text von $id"
    done
    put 5 ' ' en 'The text of one' 'The text of two'
    put 5 ' ' de 'Text von eins' 'Text von zweien'
}

# anything: the file sent.po of random ids, texts, comments and flags.
anything() {
    /usr/bin/python3 "$own/anything.py" > maps
    lexicat-file site.json import --now 5 < maps
    FROM=site.json ends 0 lexicat-po out --lang de --source en
    mv output sent.po
}

# comes_back FILE [--sent FILE]: a file has no edit.
comes_back() {
    local file=$1
    shift
    ends 0 lexicat-po in --lang de --source en "$@" site.json "$file"
    prints '{}' '{}'
}
