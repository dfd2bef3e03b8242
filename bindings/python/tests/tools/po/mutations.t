#!/usr/bin/env bash
# shellcheck disable=SC1003,SC2016,SC2034,SC2154
# Tries lexicat-po with files that are mutated at random: it ends with a status of the
# manual, and with lines of its own. It takes and needs what bindings/python/tests/tools/po/site.sh says.
cd "$(dirname "$0")/../../../../.." || exit 1
. bindings/python/tests/tools/po/site.sh

# Mutated files end with a status of the manual, and with lines of lexicat-po.
mutations() {
    site
    imports 5 '{"bye":{"en":"Goodbye","x-note":"said at the door"},
        "a:b%3A":{"de":"y {name}","en":"x {name}","x-note-de":"why"},
        "files":{"de":["%d Datei","%d Dateien"],"en":["%d file","%d files"]},
        "lines":{"de":"c\nd\n","en":"a\nb\n"}}'
    out sent.po
    sed 's/Datei/Akte/' sent.po | msgcat --width=20 - > wrapped.po
    /usr/bin/python3 "$own/mutations.py" > said 2> faulty \
        || fault "a mutated file ends otherwise: $(tail -n 5 faulty)"
    says "$(tail -n 1 said)"
}

says_seed
try 'mutated files' mutations
end
