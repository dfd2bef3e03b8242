# shellcheck shell=bash disable=SC1003,SC2016,SC2034,SC2154
# What bindings/python/tests/tools/po/catalogues.t and bindings/python/tests/tools/po/folder share: a whole catalogue that
# goes out and comes back.
. bindings/python/tests/tools/po/site.sh

# held_by FILE.po TAG: what it has, as texts_of reads it, is what the site was given.
held_by() {
    texts_of "$1" | sort > held
    jq -c --arg lang "$2" 'to_entries[] | .key as $key | .value
        | .en as $en | .[$lang] as $texts | $texts | keys[]
        | [$key, $en[0], (if ($en | length) == 2 then . else null end), $texts[.]]' given \
        | /usr/bin/python3 -c 'import json, sys
for line in sys.stdin: print(json.dumps(json.loads(line), ensure_ascii=False))' \
        | sort > wanted
    cmp -s held wanted \
        || fault "$1 has not the texts of the catalogue: $(diff held wanted | head -n 5)"
}

# The translator of real catalogues: a quarter of the messages, by their ids, get their first
# character twice. In the language of jq, of the texts of a cell:
edited='if .[1] == $tag and (.[0] | test("^[0-3]")) and .[5] != null
    then .[5] | map(sub("\\A(?<it>[^\n])"; "\(.it)\(.it)")) else .[5] end'
edits() {
    msgfilter --keep-header -i "$1" -o "$2" \
        sh -c 'case $MSGFILTER_MSGCTXT in [0-3]*) sed "1s/./&&/" ;; *) cat ;; esac' 2> said \
        || fault "$(cat said)"
}

# there_and_back FILE.mo TAG: a catalogue goes out of a new site and back, unedited and edited.
there_and_back() {
    local file=$1 tag=$2
    /usr/bin/python3 "$own/maps_of.py" "$file" "$tag" > given
    site
    lexicat-file site.json import --now 5 < given
    set -- --lang "$tag" --source en
    if [ -s rule ]; then set -- "$@" --plural-forms "$(cat rule)"; fi
    FROM=site.json ends 0 lexicat-po out "$@"
    mv output sent.po
    msgfmt --check -o /dev/null sent.po > said 2>&1 || fault "msgfmt refuses $file: $(cat said)"
    held_by sent.po "$tag"
    ends 0 lexicat-po in "$@" site.json sent.po
    prints '{}' '{}'
    edits sent.po back.po
    ends 0 lexicat-po in "$@" --sent sent.po site.json back.po
    cp site.json was.json
    lexicat-file site.json update --now 6 < output
    # (just the edited cells have other texts, and just these another stamp)
    jq -Sc '.cells[] | [.[0], .[1], .[2] == 6, .[5]]' site.json > now
    jq -Sc --arg tag "$tag" \
        ".cells[] | ($edited) as \$texts | [.[0], .[1], \$texts != .[5], \$texts]" was.json > wanted
    cmp -s now wanted || fault "$file: the edits are not those of the translator"
    changed=$(jq -s 'map(select(.[2])) | length' now)
    [ "$changed" -gt 0 ] || fault "nothing was edited"
    says "$(jq length given) messages went out and back, $changed of them edited"
}
