#!/usr/bin/env bash
# shellcheck disable=SC1003,SC2016,SC2034,SC2154
# Tries the language maps that lexicat-po makes of a catalogue: its ids, its languages,
# and what does not fit. It takes and needs what bindings/python/tests/tools/po/site.sh says.
cd "$(dirname "$0")/../../../../.." || exit 1
. bindings/python/tests/tools/po/site.sh

# sum_of [CONTEXT] MSGID: the digest that is the id of such an entry.
sum_of() {
    jq -ncj '$ARGS.positional | if length == 1 then [null] + . else . end' --args "$@" \
        | sha256sum | cut -c 1-64
}

# Ids of catalogues: contexts, and digests where a text can be no id or could be that of another.
ids() {
    local long hash
    site
    long=$(printf 'x%.0s' {1..129})
    hash=$(printf y | sha256sum | cut -c 1-64)
    cat > de.po << END
msgid ""
msgstr "Language: de\n"

# asked twice
#. said at the door
#: door.c:12
#, no-wrap
msgid "Goodbye"
msgstr "Tschüss"

msgctxt "menu"
msgid "Open"
msgstr "Öffnen"

msgid "menu|Open"
msgstr "Menü|Öffnen"

msgctxt ""
msgid "menu|Open"
msgstr "leer"

msgctxt "a|b"
msgid "c"
msgstr "d"

#, c-format
msgid "%d file"
msgid_plural "%d files"
msgstr[0] "%d Datei"
msgstr[1] "%d Dateien"

msgid "two\nlines"
msgstr "zwei\nZeilen"

msgid "@none"
msgstr "keine"

msgid "$long"
msgstr "lang"

msgid "sha256-$hash"
msgstr "Summe"

#, fuzzy
msgid "Hello"
msgstr "Hallo?"

msgid "None"
msgstr ""

msgid "bell"
msgstr "\a\v\x41\101\\\\a"

#~ msgid "old"
#~ msgstr "alt"
END
    ends 0 lexicat-po maps --source en de.po
    reports 'left out: 1 fuzzy and 1 obsolete entries'
    jq -Sc . output > got
    jq -Sc . << END > wanted
{"Goodbye": {"en": "Goodbye", "de": "Tschüss", "x-note": "said at the door",
  "x-note-de": "asked twice", "x-flags": "no-wrap"},
"menu|Open": {"en": "Open", "de": "Öffnen"},
"|menu|Open": {"en": "menu|Open", "de": "Menü|Öffnen"},
"sha256-$(sum_of '' 'menu|Open')": {"en": "menu|Open", "de": "leer"},
"sha256-$(sum_of 'a|b' c)": {"en": "c", "de": "d"},
"%d file": {"en": ["%d file", "%d files"], "de": ["%d Datei", "%d Dateien"]},
"sha256-$(sum_of $'two\nlines')": {"en": "two\nlines", "de": "zwei\nZeilen"},
"sha256-$(sum_of @none)": {"en": "@none", "de": "keine"},
"sha256-$(sum_of "$long")": {"en": "$long", "de": "lang"},
"sha256-$(sum_of "sha256-$hash")": {"en": "sha256-$hash", "de": "Summe"},
"Hello": {"en": "Hello"},
"None": {"en": "None"},
"bell": {"en": "bell", "de": "\u0007\u000bAA\\\\a"}}
END
    cmp -s got wanted || fault "other maps: $(diff got wanted)"
    lexicat-file site.json import --now 5 < output
    # Each id with the domain, which the room for an id has to hold.
    ends 0 lexicat-po maps --source en --domain door de.po
    [ "$(jq -r 'keys[]' output | grep -vc '^door/')" = 0 ] || fault "an id without its domain"
    jq -r 'keys[]' output | grep -qx 'door/@none' || fault "no door/@none"
    # Several languages: by the headers, or by the names of the files.
    sed 's/Language: de/Language: sr@latin/; s/"Tschüss"/"Zbogom"/' de.po > la.po
    sed 's/Language: de//; s/"Tschüss"/"Tchau"/' de.po > pt_BR.po
    ends 0 lexicat-po maps --source en de.po la.po pt_BR.po
    jq -c '.Goodbye | [.de, ."sr-latn", ."pt-br"]' output > got
    [ "$(cat got)" = '["Tschüss","Zbogom","Tchau"]' ] || fault "not three languages: $(cat got)"
    ends 0 lexicat-po maps --source en --lang de-at la.po
    jq -c '.Goodbye."de-at"' output | grep -qx '"Zbogom"' || fault "--lang does not count"
    cp pt_BR.po messages.po
    ends 3 lexicat-po maps --source en messages.po
    ends 3 lexicat-po maps --source de de.po
    ends 2 lexicat-po maps --source de --lang de de.po
    ends 2 lexicat-po maps --source en --domain a/b de.po
    ends 2 lexicat-po maps --source en
    # What does not fit is named.
    ends 7 lexicat-po maps --source en --lang de de.po la.po
    grep -qx 'lexicat-po: "Goodbye": has another translation in la.po' errors \
        || fault "no word of two translations"
    printf '%s\n' 'msgid "%d file"' 'msgstr "x"' '' 'msgid "a"' 'msgid_plural "b"' 'msgstr[0] "c"' \
        'msgstr[1] ""' > fr.po
    ends 7 lexicat-po maps --source en de.po fr.po
    reports '"%d file": has another msgid_plural in fr.po' \
        '"a": only some of its plural forms are translated in fr.po' \
        'left out: 1 fuzzy and 1 obsolete entries'
    printf '#, %s\nmsgid "a"\nmsgstr "b"\n' "$(seq -s , 65)" > fr.po
    ends 7 lexicat-po maps --source en fr.po
    reports '"a": it has 65 texts, and a label has at most 64'
}

# Each installed catalogue of coreutils in one document.
all_languages() {
    local file locale
    for file in "$LOCALES"/*/LC_MESSAGES/coreutils.mo; do
        [ -f "$file" ] || leaves_out "there is no coreutils.mo below $LOCALES"
        locale=${file#"$LOCALES"/}
        msgunfmt "$file" -o "${locale%%/*}.po" 2> said
    done
    set -- ./*.po
    ends 0 lexicat-po maps --source en "$@"
    jq '[.[] | keys[]] | unique | map(select(test("^(en|x-)") | not)) | length' output > got
    [ "$(cat got)" = $# ] || fault "not the languages of the files in one document"
    says "$# languages"
}

try 'ids and languages of catalogues, and what does not fit' ids
try 'all catalogues of coreutils in one document' all_languages
end
