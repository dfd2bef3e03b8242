#!/usr/bin/env bash
# Tries lexicat-po with the catalogues of coreutils in the languages from a to f, as
# bindings/python/tests/tools/po/coreutils.sh says. It takes and needs what bindings/python/tests/tools/po/site.sh says,
# and Debian's coreutils with its catalogues.
cd "$(dirname "$0")/../../../../.." || exit 1
. bindings/python/tests/tools/po/coreutils.sh
of_locales '[a-f]*'
end
