#!/usr/bin/env bash
# shellcheck disable=SC1003,SC2016,SC2034,SC2154
# Tries lexicat-po with files that went through XLIFF and back, where contexts are lost
# and references are not. The ids and texts of one part are random. It takes and needs what
# bindings/python/tests/tools/po/site.sh says, and po2xliff and xliff2po (translate-toolkit).
cd "$(dirname "$0")/../../../../.." || exit 1
. bindings/python/tests/tools/po/site.sh
needs po2xliff xliff2po

through_xliff() {
    site
    imports 5 '{"menu: 1":{"de":"Öffnen","en":"Open"}, "state":{"de":"Offen","en":"Open"},
        "files":{"de":["Datei","Dateien"],"en":["file","files"]},
        "bye é":{"en":"Goodbye"}, "bye+it":{"de":"Tschüss"}}'
    put 6 bye+it en 'Goodbye, you'
    out sent.po
    po2xliff --progress=none sent.po sent.xlf
    xliff2po --progress=none sent.xlf back.po
    passed_on back.po sent.po
    cmp -s site.json was.json || fault "an unedited XLIFF changed the site: $(cat keys)"
    sed -e 's/Offen/Auf/; s/Dateien/Akten/' \
        -e '/<source>Goodbye</{s/<trans-unit /&approved="yes" /
            n;s/<target.*/<target>Tschüss<\/target>/}' sent.xlf > back.xlf
    xliff2po --progress=none back.xlf back.po
    passed_on back.po sent.po
    changed_keys '["bye é","de",["Tschüss"]]' '["files","de",["Datei","Akten"]]' \
        '["state","de",["Auf"]]'
}

references() {
    site
    quoted
    out sent.po
    po2xliff --progress=none sent.po sent.xlf
    sed 's/>Text von/>Der Text von/' sent.xlf > back.xlf
    xliff2po --progress=none back.xlf back.po
    grep -q '^msgctxt' back.po && fault "xliff2po keeps contexts, so nothing is tried"
    passed_on back.po sent.po
    [ "$(wc -l < keys)" = 10 ] || fault "of 10 texts came back: $(cat keys)"
}

random_ones() {
    site
    anything
    po2xliff --progress=none sent.po sent.xlf
    xliff2po --progress=none sent.xlf back.po
    comes_back back.po --sent sent.po
}

says_seed
try 'a round through XLIFF' through_xliff
try 'references through XLIFF' references
try 'random ids, texts, comments and flags through XLIFF' random_ones
end
