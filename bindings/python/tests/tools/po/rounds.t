#!/usr/bin/env bash
# shellcheck disable=SC1003,SC2016,SC2034,SC2154
# Tries what comes back from a translator to lexicat-po. The ids and texts of one part
# are random. It takes and needs what bindings/python/tests/tools/po/site.sh says.
cd "$(dirname "$0")/../../../../.." || exit 1
. bindings/python/tests/tools/po/site.sh

# What comes back changes what the translator changed, and nothing else.
rounds() {
    local wanted
    site
    imports 5 '{"bye":{"en":"Goodbye"}, "files":{"de":["Datei","Dateien"],"en":["file","files"]},
        "hi":{"de":"Hallo","en":"Hello"}, "kept":{"de":"Behalten","en":"Kept"},
        "other":{"de":"Andre","en":"Other"}, "stale":{"de":"Alt"}}'
    put 6 stale en New
    out sent.po
    passed_on sent.po sent.po
    cmp -s site.json was.json || fault "an unedited file changed the site"
    ends 0 lexicat-po in --lang de --source en site.json sent.po
    prints '{}' '{}'

    # Others edit the site meanwhile: what the translator left alone stays.
    put 7 other de Andere
    sed -e 's/"Hallo"/"Servus"/; s/"Dateien"/"Akten"/; s/"Behalten"/""/' \
        -e '/^msgid "Goodbye"/{n;s/""/"Tschüss"/}' sent.po | msgcat --sort-output - > back.po
    passed_on back.po sent.po 7
    wanted='"kept": it was emptied, which does not delete it: its label stays'
    reports "$wanted (lexicat delete removes it)"
    changed_keys '["bye","de",["Tschüss"]]' '["files","de",["Datei","Akten"]]' \
        '["hi","de",["Servus"]]'
    passed_on back.po sent.po 7
    cmp -s site.json was.json || fault "a file that came back twice changed the site twice"

    # A fuzzy entry changes nothing; a confirmed one has the time of the confirmation.
    sed 's/"Alt"/"Neu"/' sent.po > fuzzy.po
    passed_on fuzzy.po sent.po
    cmp -s site.json was.json || fault "a fuzzy entry changed the site"
    msgattrib --clear-fuzzy sent.po > confirmed.po
    passed_on confirmed.po sent.po
    cmp -s site.json was.json || fault "a confirmation changed the site by update"
    wanted='1 label older than the source and confirmed without a change'
    reports "$wanted: lexicat-po confirmed prints them"
    ends 0 lexicat-po confirmed --lang de --source en site.json confirmed.po
    prints '{"stale":{"de":"Alt"}}'
    lexicat-file site.json import --now 101 < output
    jq -c '.cells[] | select(.[0] == "stale" and .[1] == "de") | .[5] + [.[2] > 6]' site.json \
        > output
    prints '["Alt",true]'
    ends 0 lexicat-po confirmed --lang de --source en site.json confirmed.po
    prints '{}'

    # What does not fit the site is named, and all else is passed on.
    out sent.po
    {
        sed -e 's/"Servus"/"Grüezi"/; s/"Akten"/""/; s/"Tschüss"/"Adieu"/' \
            -e 's/"Behalten"/"Bewahrt"/' sent.po
        printf '\nmsgctxt "nowhere"\nmsgid "x"\nmsgstr "y"\n\nmsgid "none"\nmsgstr "y"\n'
        printf '\nmsgctxt "kept"\nmsgid "again"\nmsgstr "y"\n'
        printf '\nmsgctxt "empty"\nmsgid "x"\nmsgstr ""\n'
    } > back.po
    put 102 bye en Bye
    passed_on back.po sent.po 7
    reports '"none": has no msgctxt in back.po' '"kept": is there twice in back.po' \
        '"bye": its label in en has changed since: ["Goodbye"] was translated' \
        '"files": only some of its plural forms are translated' \
        '"nowhere": the site has no label of it in en'
    changed_keys '["hi","de",["Grüezi"]]'
    # msgmerge carries the translation of the other text over, and the old one stays that was sent.
    msgattrib --no-obsolete sent.po | sed 's/"Tschüss"/"Adieu"/' > back.po
    put 103 bye en 'Goodbye!'
    put 104 other de Anderes
    out now.po
    msgmerge --quiet back.po now.po > merged.po
    [ "$(msgattrib --only-fuzzy merged.po | grep '^msgctxt')" = 'msgctxt "bye"' ] \
        || fault "msgmerge: $(cat merged.po)"
    msgattrib --clear-fuzzy merged.po > back.po
    passed_on back.po sent.po
    changed_keys '["bye","de",["Adieu"]]'
    # So is each form where the file has another plural rule.
    sed -e 's/^"Plural-Forms.*/"Plural-Forms: nplurals=2; plural=(n > 1);\\n"/' \
        -e 's/"Akten"/"Ordner"/' sent.po > ruled.po
    passed_on ruled.po sent.po 7
    grep -q '^lexicat-po: "files": the file has another plural rule, ' errors \
        || fault "another plural rule is taken: $(cat errors)"
}

# What comes back late changes what the translator changed, though nobody kept what was sent: a
# correction that was made meanwhile stays, and one that the file overrides is named.
late() {
    site
    imports 5 '{"bye":{"de":"Wiedersehen","en":"Goodbye"}, "hi":{"de":"Hallo","en":"Hello"},
        "new":{"en":"New"}}'
    out monday.po
    imports 6 '{"bye":{"de":"Auf Wiedersehen"}, "hi":{"de":"Guten Tag"}, "new":{"de":"Neu"}}'
    sed 's/"Wiedersehen"/"Tschüss"/' monday.po > friday.po
    ends 0 lexicat-po in --lang de --source en site.json friday.po
    prints '{"bye":{"de":"Auf Wiedersehen"}}' '{"bye":{"de":"Tschüss"}}'
    reports '"bye": became "Auf Wiedersehen" after it was sent, and this file overrides that'
    msgcat --sort-output monday.po > sorted.po
    ends 0 lexicat-po in --lang de --source en site.json sorted.po
    prints '{}' '{}'
    # What was not translated when it went out, and is emptied now.
    sed '/^msgid "New"/{n;s/""/"Neues"/}; s/"Hallo"/""/' monday.po > friday.po
    ends 7 lexicat-po in --lang de --source en site.json friday.po
    prints '{"new":{"de":"Neu"}}' '{"new":{"de":"Neues"}}'
    grep -q '^lexicat-po: "hi": it was emptied' errors || fault "$(cat errors)"
    # Without the digests what the site has counts, as before.
    sed '/^#\. sent: /d' monday.po > bare.po
    ends 0 lexicat-po in --lang de --source en site.json bare.po
    prints '{"bye":{"de":"Auf Wiedersehen"},"hi":{"de":"Guten Tag"}}' \
        '{"bye":{"de":"Wiedersehen"},"hi":{"de":"Hallo"}}'
}

# Files whose references were quoted once.
references() {
    site
    quoted
    out sent.po
    /usr/bin/python3 -c 'import re, sys
from urllib.parse import quote_plus
print(re.sub(r"#: \S+\nmsgctxt \"(.*)\"\n", lambda found: f"#: {quote_plus(found[1])}\n",
             sys.stdin.read()))' \
        < sent.po | sed 's/"Text von/"Von/' > old.po
    grep -qxF '#: 50%25%3A+a%3A3' old.po \
        || fault "the old references are others: $(grep '^#:' old.po)"
    passed_on old.po sent.po
    [ "$(wc -l < keys)" = 10 ] || fault "of 10 texts came back with old references: $(cat keys)"
}

# Random ids, texts, comments and flags go out and come back.
random_ones() {
    local it
    site
    anything
    msgcat --sort-output -o back.po sent.po 2> said || fault "msgcat: $(cat said)"
    for it in sent.po back.po; do comes_back "$it" --sent sent.po; done
    comes_back sent.po
}

# Comments and flags of translators come back, and headers by --like.
beside() {
    site
    imports 5 '{"bye":{"en":"Goodbye"}, "hi":{"de":"%s, hallo","en":"%s, hello"},
        "no":{"en":"No entry"}}'
    out sent.po
    sed -e '/^#: bye/i # who says this?\n#\n#   and to whom?' -e '/^#: hi/i # checked' \
        -e 's/^#, c-format/#, no-c-format, range: 0..9/' sent.po > back.po
    passed_on back.po sent.po
    changed_keys '["bye","x-note-de",["who says this?\n\nand to whom?"]]' \
        '["hi","x-flags",["no-c-format","range: 0..9"]]' '["hi","x-note-de",["checked"]]'
    passed_on back.po sent.po
    cmp -s site.json was.json || fault "comments that came back twice changed the site twice"
    # They are in the next file, for this language alone, and nothing takes them away.
    out sent.po
    grep -B 4 '^#: bye' sent.po | grep -v '^#\. sent: ' > output
    prints '# who says this?' '# ' '# and to whom?' '#: bye'
    grep -A 1 '^#: hi' sent.po > output
    prints '#: hi' '#, no-c-format, range: 0..9'
    lexicat-po out --lang fr --source en site.json | grep -q 'who says' \
        && fault "a comment of another language"
    sed '/^# [wac]/d; /^#, /d' sent.po > back.po
    passed_on back.po sent.po
    cmp -s site.json was.json || fault "comments are gone: $(cat keys)"
    ends 0 lexicat-po in --lang de --source en site.json sent.po
    prints '{}' '{}'
    # A comment of an entry that is fuzzy, or whose text does not fit, comes back too.
    put 100 hi en '%s, hello!'
    sed -e 's/hallo"/salut"/; s/^# checked/# really?/' sent.po > back.po
    passed_on back.po sent.po 7
    changed_keys '["hi","x-note-de",["really?"]]'
    # What no PO file carries is named.
    imports 101 '{"hi":{"x-flags":"a, b"},"bye":{"x-note-de":"\u0007"}}'
    FROM=site.json ends 7 lexicat-po out --lang de --source en
    reports \
        '"bye": a text of it in x-note-de has the character U+0007, which PO files do not carry' \
        '"hi": its label in x-flags has a text that is not a flag'

}

# The header, and the rule of plurals.
like() {
    local rule
    site
    imports 5 '{"files":{"en":["file","files"],"pl":["plik","pliki","plików","pliku"]}}'
    ends 7 lexicat-po out --lang pl --source en site.json
    rule='nplurals=4; plural=(n==1 ? 0 : n%10>=2 && n%10<=4 && (n%100<12 || n%100>14) ? 1 : 2);'
    cat > pl.po << END
# Polish translations.
# Copyright (C) 2026 Ewa
msgid ""
msgstr ""
"Last-Translator: Ewa <ewa@example.org>\n"
"Language-Team: Polish\n"
"Language: pl\n"
"X-Generator: Poedit\n"
"Content-Type: text/plain; charset=ISO-8859-2\n"
"Plural-Forms: $rule\n"
END
    ends 0 lexicat-po out --lang pl --source en --like pl.po site.json
    cp output sent.po
    msgfmt --check -o /dev/null sent.po 2> said || fault "msgfmt: $(cat said)"
    sed -n '1,/^$/p' sent.po | grep -E '^# |Last|Team|Generator|charset|Plural' > output
    prints '# Polish translations.' '# Copyright (C) 2026 Ewa' \
        '"Last-Translator: Ewa <ewa@example.org>\n"' \
        '"Language-Team: Polish\n"' '"Content-Type: text/plain; charset=UTF-8\n"' \
        "$(grep '^"Plural' pl.po)" '"X-Generator: Poedit\n"'
    sed 's/"plik"/"Plik"/' sent.po > back.po
    ends 7 lexicat-po in --lang pl --source en site.json back.po
    ends 0 lexicat-po in --lang pl --source en --like pl.po site.json back.po
    prints '{"files":{"pl":["plik","pliki","plików","pliku"]}}' \
        '{"files":{"pl":["Plik","pliki","plików","pliku"]}}'
    ends 0 lexicat-po in --lang pl --source en --sent sent.po site.json back.po
    ends 0 lexicat-po out --lang pl-pl --source en --like pl.po site.json
    ends 3 lexicat-po out --lang cs --source en --like pl.po site.json
    ends 4 lexicat-po out --lang pl --source en --like nowhere.po site.json
}

# The Language of a file is compared as a whole, in the ways of PO files.
languages() {
    local lang stated status
    site
    put 5 hi en Hello
    while read -r lang stated status; do
        printf '%s\n' 'msgid ""' "msgstr \"Language: $stated\\n\"" '' \
            'msgctxt "hi"' 'msgid "Hello"' 'msgstr "x"' > back.po
        ends "$status" lexicat-po in --lang "$lang" --source en site.json back.po
    done << 'END'
pt pt 0
pt pt_BR 3
pt-br pt_BR 0
pt-br pt 3
PT-BR pt_br 0
zh-hant zh_CN 3
zh-hant zh_Hant 0
zh-hant-tw zh_Hant_TW 0
zh-tw zh_TW 0
sr-latn sr@latin 0
sr sr@latin 3
sr-latn-rs sr_RS@latin 0
uz-cyrl uz@cyrillic 0
ca-valencia ca@valencia 0
de-at de_AT.UTF-8 0
de-de de_DE@euro 0
de de_AT 3
de-at-1996 de-at-1996 0
@none de 0
END
    for lang in de pt-br sr-latn sr-cyrl-rs zh-hant-tw es-419 ca-valencia x-own de-at-1996 @none; do
        lexicat-po out --lang "$lang" --source en site.json > sent.po
        ends 0 lexicat-po in --lang "$lang" --source en site.json sent.po
    done
    ends 3 lexicat-po in --lang pt --source en site.json sent.po
}

says_seed
try 'what the translator changed, and nothing else' rounds
try 'a file that comes back late' late
try 'references that were quoted once' references
try 'random ids, texts, comments and flags' random_ones
try 'comments and flags of translators' beside
try 'headers and plural rules of another file' like
try 'the language of a file' languages
end
