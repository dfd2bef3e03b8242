#!/usr/bin/env bash
# shellcheck disable=SC2154
# Tries lexicat-po with whole catalogues that are installed, of languages with one to
# four plural forms: each goes out, and comes back unedited and edited. It takes and needs what
# bindings/python/tests/tools/po/site.sh says, and the catalogues of Debian's grep, sed, tar, make, diffutils
# and findutils.
cd "$(dirname "$0")/../../../../.." || exit 1
. bindings/python/tests/tools/po/catalogues.sh

while read -r domain locale; do
    name="the catalogue of $domain in $locale"
    file=$LOCALES/$locale/LC_MESSAGES/$domain.mo
    if [ -f "$file" ]; then
        try "$name" there_and_back "$file" "$(tag_of "$locale")"
    else
        lacks "$name" "$file"
    fi
done << 'END'
grep de
make de
sed pl
tar pl
findutils sl
diffutils ja
make pt_BR
grep sl
END
end
