#!/usr/bin/env bash
# Passes each example of docs/FORMATS.md (a block marked json KIND), and each literal block of the
# manual of formats, to a command that reads it, which has to take it. Takes build/lexicat, or the
# command that LEXICAT names.
cd "$(dirname "$0")/../.." || exit 1
. tests/lib/tap.sh
lexicat=${LEXICAT:-$PWD/build/lexicat}
needs "$lexicat"
kinds='site summary delta langmaps script'
fewest=11
tokyo='{"cells":[],"kind":"site","site":"tokyo","version":2}'

take() { # the kind of a document, and the document
    case $1 in
        site) echo "$2" | "$lexicat" status ;;
        summary) printf '%s\n%s\n' "$tokyo" "$2" | "$lexicat" delta ;;
        delta) printf '%s\n%s\n' "$tokyo" "$2" | "$lexicat" take ;;
        langmaps) printf '%s\n%s\n' "$tokyo" "$2" | "$lexicat" import --now 1 ;;
        script) echo "$2" | "$lexicat" replay ;;
        *) echo "the kind $1 is unknown" && return 1 ;;
    esac
}

of_page() { # the documents of docs/FORMATS.md, a line each after its kind
    awk '/^```json / { kind = $2; next } /^```$/ { kind = "" } kind { print kind, $0 }' \
        docs/FORMATS.md
}

# (The manual's documents are broken into lines to fit the page.)
of_manual() {
    sed -n '/^\.Bd -literal$/,/^\.Ed$/p' man/lexicat-formats.5 |
        sed 's/^\.Bd.*//; s/^\.Ed$/\x01/' | tr -d '\n' | tr '\1' '\n' | grep '^{' |
        sed -E '/"kind":"[a-z]*"/! s/^/langmaps /; s/^.*"kind":"([a-z]*)".*$/\1 &/'
}

takes_all() { # a file of documents, and their kind
    local kind line count=0
    while read -r kind line; do
        [ "$kind" = "$2" ] || continue
        count=$((count + 1))
        take "$kind" "$line" > "$room/taken" 2>&1 || { cat "$room/taken"; echo "$line"; return 1; }
    done < "$1"
    [ "$count" -gt 0 ] && echo "$count are read"
}

has_known_kinds() { # a file of documents
    ! cut -d ' ' -f 1 "$1" | grep -vxE "${kinds// /|}"
}

has_enough() {
    local count
    count=$(cat "$room/page" "$room/manual" | wc -l)
    echo "$count examples"
    [ "$count" -ge "$fewest" ]
}

of_page > "$room/page"
of_manual > "$room/manual"
check 'the kinds of docs/FORMATS.md are known' has_known_kinds "$room/page"
check 'the kinds of the manual are known' has_known_kinds "$room/manual"
check "there are at least $fewest examples" has_enough
for kind in $kinds; do
    check "docs/FORMATS.md: $kind" takes_all "$room/page" "$kind"
    if grep -q "^$kind " "$room/manual"; then
        check "the manual: $kind" takes_all "$room/manual" "$kind"
    fi
done
end
