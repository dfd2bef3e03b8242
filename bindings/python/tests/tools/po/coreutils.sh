# shellcheck shell=bash disable=SC2034,SC2154
# What bindings/python/tests/tools/po/coreutils_*.t share: catalogues of coreutils become language maps, and
# the sites of these go out as files with the same texts. The catalogues are those below the folder
# that LOCALES names.
. bindings/python/tests/tools/po/site.sh

# becomes_maps FILE.mo LOCALE: a catalogue becomes language maps, and these a file with its texts.
becomes_maps() {
    local tag
    tag=$(tag_of "$2")
    msgunfmt "$1" -o "$2.po" 2> said
    ends 0 lexicat-po maps --source en --domain coreutils "$2.po"
    site
    lexicat-file site.json import --now 5 < output
    lexicat-po out --lang "$tag" --source en --like "$2.po" site.json > sent.po 2> errors || true
    msgfmt --check -o /dev/null sent.po > said 2>&1 || fault "msgfmt refuses $2: $(cat said)"
    texts_of sent.po | jq -c '.[1:]' | sort > held
    texts_of "$2.po" | jq -c '.[1:]' | sort > wanted
    # (those that out names have a character that PO files do not carry)
    comm -23 held wanted > other
    comm -13 held wanted | grep -v '\\u00\(07\|0b\)' >> other || true
    if [ -s other ] || [ $(($(wc -l < wanted) - $(wc -l < held))) != "$(wc -l < errors)" ]; then
        fault "$2: other texts: $(head -n 5 other) $(cat errors)"
    fi
    comes_back_as "$tag" sent.po
    says "$(wc -l < held) texts"
}

# comes_back_as TAG FILE: a file in a language has no edit.
comes_back_as() {
    ends 0 lexicat-po in --lang "$1" --source en site.json "$2"
    prints '{}' '{}'
}

# of_locales PATTERN: tries each catalogue of the locales with such names.
of_locales() {
    local file locale catalogues=0
    # shellcheck disable=SC2086 # a pattern
    for file in "$LOCALES"/$1/LC_MESSAGES/coreutils.mo; do
        [ -f "$file" ] || continue
        locale=${file#"$LOCALES"/}
        locale=${locale%%/*}
        try "the catalogue of coreutils in $locale" becomes_maps "$file" "$locale"
        catalogues=$((catalogues + 1))
    done
    [ "$catalogues" -gt 0 ] || skip_all "there is no coreutils.mo in $1 below $LOCALES"
}
