#!/usr/bin/env bash
# shellcheck disable=SC2154
# Tries lexicat-convert with a site: what is exported goes out in each format, and is the
# same when it comes back; what is changed in it changes just that label of the site. It takes and
# needs what bindings/python/tests/tools/lib.sh says.
cd "$(dirname "$0")/../../../../.." || exit 1
. bindings/python/tests/tools/lib.sh
own=$PWD/bindings/python/tests/tools/convert

# there_and_back FORMAT: what goes out of a site and comes back changes nothing in it, and what is
# changed in that changes just that label.
there_and_back() {
    local format=$1 words=(--lang de) cells
    new_site site.json app
    ends 0 lexicat-file site.json import --now 5 "$own/site.maps"
    "$LEXICAT" export < site.json > exported
    case $format in
        csv) words=() ;;
        xcstrings) words=(--source en) ;;
        xliff | xliff2) words+=(--source en) ;;
    esac
    ends 0 lexicat-convert "$format" out "${words[@]}" --domain "$format" exported
    cp output sent
    ends 0 lexicat-convert "$format" in "${words[@]}" --domain "$format" sent
    cp output was
    ends 0 lexicat-file site.json update --now 9 was was
    "$LEXICAT" export < site.json | cmp -s - exported || fault "another site"
    jq -e --arg format "$format/" --slurpfile all exported '. as $was
        | [$all[0] | to_entries[] | select(.key | startswith($format)) | .key | $was[.].de]
        | length > 0 and all(. != null)' was > /dev/null || fault "not all came back"
    sed 's/Hallo/Servus/' sent > edited
    ends 0 lexicat-convert "$format" in "${words[@]}" --domain "$format" edited
    cp output is
    cp site.json before.json
    ends 0 lexicat-file site.json update --now 10 was is
    cells=$(jq -nc --slurpfile was before.json --slurpfile now site.json \
        '[($now[0].cells - $was[0].cells)[] | [.[0], .[1]]]')
    [ "$cells" = "[[\"$format/hi\",\"de\"]]" ] || fault "edited $cells"
}

for format in i18next arb android strings stringsdict xcstrings properties csv xliff xliff2 fluent; do
    try "a site out in $format and back" there_and_back "$format"
done
end
