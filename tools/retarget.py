"""Makes a module of LLVM, which the Rattle kit lowered for x86-64, text that clang compiles for
another target.

usage: retarget.py TARGET CLANG MODULE OUT.ll
           TARGET  wasm64, wasm64-plain (which has no vectors) or aarch64
           CLANG   the kit's, which reads the module

Each step is named below. It stops where anything is left that is of x86, where the module calls a
function that is not named here, and where it has assembly code.
"""
import re
import subprocess
import sys

# What the module calls and does not define: the kit's heap, and the two that LLVM may call by name.
CALLED = {"rattle_alloc", "rattle_realloc", "rattle_dealloc", "memcmp", "bcmp"}
# What the command declares besides, which is no program in WebAssembly: its arguments and streams;
# and calls for the environment and for threads, which nothing in it calls (tools/arm64 sees it).
DECLARED_BY_COMMAND = {"rattle_arg", "rattle_errno", "rattle_set_errno", "rattle_env",
                       "rattle_env_at", "read", "write", "__sysv_signal", "abort", "free", "malloc",
                       "sched_yield", *("pthread_" + it for it in (
                           "attr_destroy", "attr_init", "attr_setguardsize", "attr_setstacksize",
                           "create", "detach", "join", "self"))}
# Assembly code without text is for the compiler alone, and no instruction.
BARRIER = re.compile(r'asm (?:sideeffect )?"", "[^"]*"')
# The one instruction of x86 that the kit's libraries use, PSHUFB, takes the low four bits of an
# index, and gives 0 where its highest bit is set; those of other processors, by their targets, give
# 0 for any index over 15. So these two bits' masks (0x8f) make the second do what the first does.
SHUFFLE = "llvm.x86.ssse3.pshuf.b.128"
TARGETS = {"wasm64": "llvm.wasm.swizzle", "wasm64-plain": None,
           "aarch64": "llvm.aarch64.neon.tbl1.v16i8"}
SHUFFLED = """\
define internal <16 x i8> @shuffled(<16 x i8> %bytes, <16 x i8> %indices) alwaysinline {
  %masked = and <16 x i8> %indices, splat (i8 143)
  %result = call <16 x i8> @NAME(<16 x i8> %bytes, <16 x i8> %masked)
  ret <16 x i8> %result
}
declare <16 x i8> @NAME(<16 x i8>, <16 x i8>)"""


def plain_shuffle():
    """What PSHUFB does, a byte after the other."""
    lines = [
        "define internal <16 x i8> @shuffled(<16 x i8> %bytes, <16 x i8> %indices) {",
        "  %at = alloca <16 x i8>", "  store <16 x i8> %bytes, ptr %at"]
    for it in range(16):
        before = f"%result{it - 1}" if it else "zeroinitializer"
        lines += [
            f"  %index{it} = extractelement <16 x i8> %indices, i32 {it}",
            f"  %low{it} = and i8 %index{it}, 15",
            f"  %place{it} = getelementptr i8, ptr %at, i8 %low{it}",
            f"  %byte{it} = load i8, ptr %place{it}",
            f"  %is_zero{it} = icmp slt i8 %index{it}, 0",
            f"  %given{it} = select i1 %is_zero{it}, i8 0, i8 %byte{it}",
            f"  %result{it} = insertelement <16 x i8> {before}, i8 %given{it}, i32 {it}"]
    return "\n".join([*lines, "  ret <16 x i8> %result15", "}"])


def stop(what):
    sys.exit(f"retarget.py: {what}")


def read(clang, module):
    """Returns a module as clang writes it, without the layout of its target: clang gives it that of
    the target that it compiles for."""
    words = [clang, "-x", "ir", "-S", "-emit-llvm", "-O0", "-Xclang", "-disable-llvm-passes"]
    text = subprocess.run([*words, module, "-o", "-"], stdout=subprocess.PIPE, check=True).stdout
    return re.sub(r"^target (?:datalayout|triple) = .*\n", "", text.decode(), flags=re.M)


def without_processor(text, target):
    """Takes out of attributes the processor, x86-64, and what WebAssembly has no use for: the way
    to look at the stack."""
    named = "target-cpu|target-features|tune-cpu"
    if target != "aarch64":
        named += "|probe-stack|stack-probe-size"
    return re.sub(rf' "(?:{named})"="[^"]*"', "", text)


def without_test(text):
    """Leaves of the command's `main` what is for any processor: that a write to a closed pipe
    fails, and the call of the program. Between them it would test for x86-64-v2."""
    found = re.search(r"^define i32 @main\(\).*?^}$", text, re.M | re.S)
    if not found:
        return text
    signal = re.findall(r" = (?:tail )?call (i64 @__sysv_signal\(i32 13, i64 1\))", found[0])
    start = re.findall(r' = (?:tail )?call (i32 @"\w+::main\+start"\(\))', found[0])
    if len(signal) != 1 or len(start) != 1:
        stop(f"main is another than it was: {found[0]}")
    made = [f"  %signal = call {signal[0]}", f"  %status = call {start[0]}", "  ret i32 %status"]
    text = text.replace(found[0], "\n".join(["define i32 @main() {", *made, "}"]))
    return re.sub(r"^declare .*@(?:__x86_get_cpuid_feature_leaf|__write)\(.*\n", "", text,
                  flags=re.M)


def with_shuffle(text, target):
    """Replaces the one instruction of x86 by that of the target, or by what does the same."""
    name = TARGETS[target]
    made = SHUFFLED.replace("NAME", name) if name else plain_shuffle()
    text = re.sub(rf"^declare <16 x i8> @{re.escape(SHUFFLE)}\(.*$", made, text, flags=re.M)
    return text.replace(f"@{SHUFFLE}", "@shuffled")


def with_whole_pairs(text):
    """Copies a pair of bytes as a number. LLVM would copy a vector of two by a lane of a larger
    one, which wasm-opt would not lower."""
    for line in re.findall(r"^.*<2 x i8>.*$", text, flags=re.M):
        if not re.match(r"  (%\w+ = load|store) <2 x i8>", line):
            stop(f"a pair of bytes is not only copied: {line.strip()}")
    return text.replace("<2 x i8>", "i16")


def with_whole_loads(text):
    """Splits each load of a part of a vector into the load of a number and what makes a vector of
    it. Assembly code without text between them keeps LLVM from an instruction that does both,
    which wasm-opt would not lower."""
    for size, number in ((4, "i32"), (8, "i64")):
        text = re.sub(
            rf"^  (%\w+) = load <{size} x i8>, ptr ([^,]+), align (\d+).*$",
            rf"  \1.read = load {number}, ptr \2, align \3" "\n"
            rf'  \1.kept = call {number} asm "", "=r,0"({number} \1.read)' "\n"
            rf"  \1 = bitcast {number} \1.kept to <{size} x i8>", text, flags=re.M)
    return re.sub(
        r"^  (%\w+) = insertelement (<\d+ x i8> \S+), i8 (%\w+), (.*)$",
        r'  \1.kept = call i8 asm "", "=r,0"(i8 \3)' "\n"
        r"  \1 = insertelement \2, i8 \1.kept, \4", text, flags=re.M)


def check(text, called):
    """Stops where the module is not one for any processor, or calls other functions than these."""
    for number, line in enumerate(text.split("\n"), 1):
        if re.search(r"\bx86|ssse|\bavx", line):
            stop(f"line {number} is of x86: {line[:160]}")
        if re.search(r"\basm\b(?!\")", BARRIER.sub("", line)):
            stop(f"line {number} has assembly code: {line[:160]}")
    declared = set(re.findall(r'^declare .*?@"?([^"(]+)"?\(', text, re.M))
    other = {it for it in declared if not it.startswith("llvm.")} - called
    if other:
        stop(f"the module calls what is not named here: {', '.join(sorted(other))}")


def main(words):
    if len(words) != 4 or words[0] not in TARGETS:
        sys.exit(__doc__)
    target, clang, module, out = words
    text = with_shuffle(without_processor(read(clang, module), target), target)
    called = CALLED
    if target == "wasm64":
        text = with_whole_loads(with_whole_pairs(text))
    elif target == "aarch64":
        text, called = without_test(text), CALLED | DECLARED_BY_COMMAND
    check(text, called)
    with open(out, "w", encoding="utf-8") as file:
        file.write(text)


if __name__ == "__main__":
    main(sys.argv[1:])
