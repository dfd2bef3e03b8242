#!/usr/bin/env bash
# Has the TypeScript compiler read programs that use the types of the package for npm, in Node and
# in pages. npm.sh says what it takes and needs; tsc (Debian's node-typescript) is needed besides.
cd "$(dirname "$0")/../../.." || exit 1
. tests/lib/tap.sh
. bindings/browser/tests/npm.sh
needs tsc

is_typed() { # how modules are resolved, the module's kind, a program, and more words
    local words=(--moduleResolution "$1" --module "$2" "${@:4}")
    cp "$3" "$app/types.mts"
    (cd "$app" && tsc --strict --noEmit --target es2022 "${words[@]}" types.mts)
}

is_installed
# (without the types of pages)
check 'its types in Node' is_typed node16 node16 bindings/node/test/types.ts --lib es2022
check 'its types in pages' is_typed node16 node16 "$own/types.ts"
# (as programs without `exports` resolve it)
check 'its types by the older way' is_typed node es2022 "$own/types.ts"
end
