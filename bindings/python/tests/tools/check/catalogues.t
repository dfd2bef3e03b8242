#!/usr/bin/env bash
# shellcheck disable=SC2016,SC2034,SC2154
# Tries lexicat-check over catalogues of programs in many languages: each label that it
# names is found by msgfmt --check-format or by pofilter too, so there is no false alarm; and the
# editor's page has the same verdicts. It takes and needs what bindings/python/tests/tools/check/site.sh says,
# gettext, pofilter (translate-toolkit), polib for /usr/bin/python3 (Debian's python3-polib), for
# the editor's rules Node, and the catalogues of Debian's coreutils, gettext and sed below
# /usr/share/locale, or the folder that LOCALES names. CATALOGUES names others: 'coreutils git'.
cd "$(dirname "$0")/../../../../.." || exit 1
. bindings/python/tests/tools/check/site.sh
needs msgfmt msgunfmt pofilter
/usr/bin/python3 -c 'import polib' 2> /dev/null || skip_all 'there is no polib for /usr/bin/python3'
LOCALES=${LOCALES:-/usr/share/locale}

# as_site DOMAIN: makes a site of the catalogues of a program, as lexicat-po does.
as_site() {
    local file lang
    mkdir po
    for file in "$LOCALES"/*/LC_MESSAGES/"$1".mo; do
        lang=${file#"$LOCALES"/}
        lang=${lang%%/*}
        case $lang in en | en[_@]*) continue ;; esac
        msgunfmt --no-wrap -o "po/$lang.po" "$file" 2> said || fault "msgunfmt: $(cat said)"
    done
    # (7: some entries do not fit)
    lexicat-po maps --source en po/*.po > maps 2> said || [ $? = 7 ] \
        || fault "lexicat-po: $(tail -n 1 said)"
    lexicat-file site.json import --now 5 maps
}

# seen DOMAIN: what is found in the catalogues of a program is found by others; its labels are left.
seen() {
    local labels=$room/$1
    site
    as_site "$1"
    lexicat-check --source en site.json > found || [ $? = 1 ] || fault 'lexicat-check ends'
    "$LEXICAT" export < site.json > labels.json
    /usr/bin/python3 "$own/seen.py" labels.json found po > said 2> alarms \
        || fault "a false alarm: $(cat alarms)"
    jq -c 'to_entries[] | .value as $it | ($it.en | [.] | flatten) as $en | $it | to_entries[]
        | select(.key | test("^(en$|x-)") | not) | [.key, $en, ([.value] | flatten)]' \
        labels.json > "$labels"
    verdicts_of "$labels"
    says "$(wc -l < "$labels") labels in $(jq -r '.[0]' "$labels" | sort -u | wc -l) languages:" \
        "$(tail -n 1 said)"
}

for domain in ${CATALOGUES:-coreutils gettext-tools sed}; do
    if compgen -G "$LOCALES/*/LC_MESSAGES/$domain.mo" > /dev/null; then
        try "the catalogues of $domain" seen "$domain"
        by_editor "the catalogues of $domain, by the editor" "$room/$domain"
    else
        lacks "the catalogues of $domain" "$domain.mo below $LOCALES"
        lacks "the catalogues of $domain, by the editor" "$domain.mo below $LOCALES"
    fi
done
end
