#!/usr/bin/env bash
# shellcheck disable=SC1003,SC2016,SC2034,SC2154
# Tries what goes out of a site by lexicat-po: entries, plural rules beside those of
# msginit, flags of formats beside those of xgettext, and what no PO file can hold. It takes and
# needs what bindings/python/tests/tools/po/site.sh says.
cd "$(dirname "$0")/../../../../.." || exit 1
. bindings/python/tests/tools/po/site.sh

# Each rule of the table that gettext has too is the one that msginit writes.
rules() {
    local lang locale count=0
    site
    printf '%s\n' 'msgid ""' 'msgstr "Content-Type: text/plain; charset=UTF-8\n"' '' 'msgid "a"' \
        'msgstr ""' > some.pot
    for lang in be bg cs da de el en eo es et 'fi' fr ga he hr it ja ko lt lv nb nl nn no pl pt \
        pt-BR ro ru sk sl sr sv tr uk vi; do
        locale=${lang/-/_}
        msginit --no-translator -l "$locale" -i some.pot -o - 2> said | msgcat --no-wrap - \
            | grep '^"Plural-Forms' > wanted || fault "msginit has no rule of $lang"
        lexicat-po out --lang "$lang" --source x-source < site.json \
            | grep '^"Plural-Forms' > output || fault "no rule of $lang"
        cmp -s wanted output || fault "$lang: $(cat output), and msginit has $(cat wanted)"
        count=$((count + 1))
    done
    FROM=site.json ends 0 lexicat-po out --lang DE-AT --source en
    grep -qF 'nplurals=2; plural=(n != 1);' output || fault "de-AT has not the rule of de"
    FROM=site.json ends 0 lexicat-po out --lang xyz --source en
    grep -q Plural-Forms output && fault "a rule of xyz"
    FROM=site.json ends 2 lexicat-po out --lang xyz --source en \
        --plural-forms 'nplurals=2; plural=n=;'
    says "$count plural rules"
}

# What an entry has, as gettext's tools see it.
entries() {
    site
    imports 5 '{"bye":{"en":"Goodbye","x-note":"said at the door,\nto one person"},
        "files":{"de":["%d Datei","%d Dateien"],"en":["%d file","%d files"]},
        "gone":{"de":"Weg","en":"Gone"}, "only":{"de":"Nur"}, "stale":{"de":"Alt"},
        "menu":{"de":"Öffne\tes\\n","en":"Open \"it\"\\"}, "two":{"en":["one","two"]},
        "state of: 5 é+%":{"de":"Offen","en":"Open \"it\"\\"}}'
    lexicat-file site.json delete --now 7 --id gone --lang en
    put 8 stale en New
    out de.po
    texts_of de.po | LC_ALL=C sort > output
    prints '["files", "%d file", 0, "%d Datei"]' '["files", "%d file", 1, "%d Dateien"]' \
        '["menu", "Open \"it\"\\", null, "Öffne\tes\\n"]' \
        '["state of: 5 é+%", "Open \"it\"\\", null, "Offen"]'
    [ "$(msgattrib --only-fuzzy de.po | grep -c '^msgctxt')" = 1 ] || fault "not one entry is fuzzy"
    msgattrib --only-fuzzy de.po | grep -q '^msgctxt "stale"' \
        || fault "the older label is not fuzzy"
    # (which is what the command finds)
    "$LEXICAT" outdated --lang de --source en < site.json | jq -r 'keys[]' > output
    prints stale
    msgattrib --untranslated de.po | grep '^msgctxt' > output
    prints 'msgctxt "bye"' 'msgctxt "two"'
    grep -A1 '^#\. said at the door,$' de.po | tail -n 1 > output
    prints '#. to one person'
    grep -A4 '^msgctxt "two"' de.po > output
    prints 'msgctxt "two"' 'msgid "one"' 'msgid_plural "two"' 'msgstr[0] ""' 'msgstr[1] ""'
}

# What PO files cannot hold is named, all else goes out, and the status is 7.
misfits() {
    local wanted
    site
    imports 5 '{"alternatives":{"de":["Hallo","Guten Tag"],"en":"Hello"}, "empty":{"en":""},
        "feed":{"de":"Hallo","en":"Hello\n"}, "fine":{"en":"Fine"}, "nul":{"en":"a\u0000b"},
        "forms":{"de":"Datei","en":["file","files"]}, "lines":{"en":["a","b","c"]},
        "bell":{"de":"\u0007","en":"a"}, "note":{"en":"a","x-note":"\u0000"}}'
    out de.po 7
    reports '"alternatives": its label in de has 2 texts, and its source 1' \
        '"bell": a text of it in de has the character U+0007, which PO files do not carry' \
        '"empty": its label in en has an empty text, which cannot be a msgid' \
        '"feed": its texts do not all begin, or do not all end, with a line feed' \
        '"forms": its label in de has 1 text, and the plural rule 2 forms' \
        '"lines": its label in en has 3 texts, and PO files have a msgid and a msgid_plural' \
        '"note": a text of it in x-note has the character U+0000, which PO files do not carry' \
        '"nul": a text of it in en has the character U+0000, which PO files do not carry'
    grep '^msgctxt' de.po > output
    prints 'msgctxt "fine"'
    FROM=site.json ends 7 lexicat-po out --lang xyz --source en
    wanted='lexicat-po: "forms": no plural rule of xyz is known: name one by'
    grep -qx "$wanted --plural-forms or --like" errors || fault "no word of the missing rule"
    ends 2 lexicat-po out --lang de --source DE
    ends 2 lexicat-po out --lang de_AT --source en
    ends 2 lexicat-po in --lang de --source en site.json
    ends 2 lexicat-po
    ends 0 lexicat-po in --help
    ends 3 lexicat-po out --lang de --source en
    ends 3 lexicat-po in --lang fr --source en site.json de.po
    ends 3 lexicat-po in --lang de --source en site.json site.json
    ends 3 lexicat-po in --lang de --source en de.po de.po
    ends 4 lexicat-po in --lang de --source en site.json nowhere.po
    ends 4 lexicat-po in --lang de --source en nowhere.json de.po
    [ ! -s output ] || fault "an answer in spite of a fault"
    FROM=site.json ends 4 sh -c 'lexicat-po out --lang de --source en > /dev/full'
}

# checked TEXT TRANSLATION: msgfmt checks an entry that goes out of a site.
checked() {
    jq -nc '{m: {en: $ARGS.positional[0], de: $ARGS.positional[1]}}' --args "$@" > maps
    lexicat-file site.json import --now 5 < maps
    lexicat-po out --lang de --source en site.json > checked.po
    msgfmt --check -o /dev/null checked.po 2> said
}

# Flags of formats: none that xgettext does not write, and by them msgfmt finds what is wrong.
formats() {
    local -a lines
    site
    printf '%s\n' '%d files' '%s of %s' '%1$s %2$d' '%5.2f%%' '%lu' '%*d' '%.3s' "%'d" '%-08.3Lf' \
        '%hhd %zd %jd %td' > c
    printf '%s\n' '%(name)s' '%(n)5.1f%% of %(all)d' '%(a)r' > python
    printf '%s\n' '{name} x' '{0} y' '{a.b} {c[0]}' '{price:.2f}' '{{x}} {y}' > brace
    printf '%s\n' '50%' '100% sure' '%s of 50%' '% d' '100%' '%' '5%%' '%y' '%5$' '%d 100% sure' \
        '50%off' '{}' '{' '{ a }' '{{a}}' \
        '{count, plural, one {# file} other {# files}}' '{"a": 1}' '${a}' '#{a}' 'a } {b}' > no
    jq -nR '[inputs] | to_entries | map({key: "\(.key)", value: {en: .value}}) | from_entries' \
        c python brace no > maps
    lexicat-file site.json import --now 5 < maps
    ends 0 lexicat-po out --lang de --source en site.json
    cp output sent.po
    for it in c:c-format python:python-format brace:python-brace-format; do
        msgattrib --only-fuzzy sent.po > /dev/null
        /usr/bin/python3 -c 'import polib, sys
for entry in polib.pofile("sent.po"):
    if sys.argv[1] in entry.flags: print(entry.msgid)' "${it#*:}" | LC_ALL=C sort > output
        LC_ALL=C sort "${it%:*}" | cmp -s - output || fault "$it: $(diff "${it%:*}" output)"
    done
    # (each line as a text of C or of Python)
    jq -Rr '"_(\(tojson));"' c > c.c
    jq -Rr '"_(\(tojson))"' python brace > p.py
    xgettext -k_ -o c.pot c.c
    xgettext -L Python -o p.pot p.py
    mapfile -t lines < <(grep -c '^#, c-format' c.pot; grep -c '^#, python-' p.pot)
    [ "${lines[*]}" = "$(wc -l < c) $(cat python brace | wc -l)" ] \
        || fault "xgettext has other flags: ${lines[*]}"
    while IFS='|' read -r text right wrong; do
        rm site.json site.json.changes
        lexicat-file site.json new --site lyon
        checked "$text" "$right" || fault "$text: msgfmt refuses '$right': $(cat said)"
        [ -z "$wrong" ] || ! checked "$text" "$wrong" || fault "$text: msgfmt takes '$wrong'"
    done << 'END'
%d files|%d Dateien|%s Dateien
%s of %s|%2$s von %1$s|von %s
%(name)s is here|%(name)s ist da|%(nom)s ist da
{name} is here|{name} ist da|{nom} ist da
%{name} is here|%{name} ist da|%{nom} ist da
%@ is here|%@ ist da|%d ist da
%d%% done|zu %d%% fertig|zu %d%%%s fertig
100% sure|100 % sicher|
50%|50 % Rabatt|
50%off|50 % weniger|
5% of {a|5 % von a}|
{count, plural, one {# file} other {# files}}|{count, plural, other {# Dateien}}|
END
    rm site.json site.json.changes
    lexicat-file site.json new --site lyon
    imports 5 '{"files":{"de":["eine Datei","%d Dateien"],"en":["%d file","%d files"]}}'
    out sent.po
    sed 's/%d Dateien/Dateien/' sent.po > wrong.po
    msgfmt --check -o /dev/null wrong.po 2> said && fault "msgfmt takes a form without its number"
    return 0
}

try 'plural rules are those of msginit' rules
try 'what an entry has' entries
try 'what PO files cannot hold' misfits
try 'flags of formats' formats
end
