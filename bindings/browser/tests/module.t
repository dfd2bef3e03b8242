#!/usr/bin/env bash
# Builds the module for browsers once more, in a folder of its own, and sees that it is the same;
# tries what is made of instructions that WebAssembly lacks, and the memory of the module, also
# where no more is given, in Node and in headless Chromium. engines.sh says what it takes and
# needs.
#
# Takes the modules of LLVM that BROWSER_MODULE and COMMAND_MODULE name, or those that the prover
# left in crates/front_c/out and crates/command_c/out; nothing is proved. Needed besides: the
# Rattle kit, whose clang has to know WebAssembly; wasm-opt (Debian's binaryen); and a C compiler,
# without which the arithmetic of 128 bits is skipped. What is tried at random is made of SEED.
cd "$(dirname "$0")/../../.." || exit 1
. tests/lib/tap.sh
rt=${RT:-rt}
export BROWSER_MODULE=${BROWSER_MODULE:-crates/front_c/out/front_c.bc}
export COMMAND_MODULE=${COMMAND_MODULE:-crates/command_c/out/command_c.bc}
needs "$rt" wasm-opt "$BROWSER_MODULE" "$COMMAND_MODULE"
. bindings/browser/tests/engines.sh

knows_wasm() {
    local kit
    kit=$(dirname "$(dirname "$(readlink -f "$(command -v "$rt")")")")
    "$kit/toolchain/bin/clang" --print-targets 2> /dev/null | grep -q wasm64
}

builds() { # with the module whose memory has a limit
    BROWSER_OUT=$room/again BROWSER_LIMITED=$site/limited.wasm tools/browser
}

is_the_same() {
    diff -r build/browser "$room/again" && sha256sum < build/browser/silkwaram.wasm | cut -c 1-16
}

computes() {
    "${CC:-cc}" -std=gnu11 -O2 "$own/int128.c" -o "$room/int128" && "$room/int128" "$SEED"
}

shuffles() { # the modules that are made of shuffle.ll
    tools/browser --of "$own/shuffle.ll" "$site/shuffle.wasm" shuffle &&
        tools/browser --plain "$own/shuffle.ll" "$site/plain.wasm" shuffle
}

knows_wasm || skip_all "the kit's clang does not know WebAssembly"
says_seed
echo "$SEED" > "$site/seed.json"
check 'the module is built' builds
[ "$failed" -eq 0 ] || end
check 'the module is built the same twice' is_the_same
if is_there "${CC:-cc}"; then
    check 'arithmetic of 128 bits' computes
else
    lacks 'arithmetic of 128 bits' "${CC:-cc}"
fi
check 'the instruction of x86 is replaced' shuffles
in_engines 'the shuffle' shuffle.mjs tryShuffle shuffle.wasm seed.json
in_engines 'the shuffle without vectors' shuffle.mjs tryShuffle plain.wasm seed.json
in_engines memory memory.mjs tryMemory silkwaram.wasm limited.wasm seed.json
end
