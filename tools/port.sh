#!/usr/bin/env bash
# The proved library for another processor: tools/port.sh TARGET.. ('all' for every one; without a word it lists them).
# Writes target/port/TARGET/libvosemaqe.a, vosemaqe.h, and the stack frame of each function, frames; docs/PORTING.md says how a firmware links them.
#
# `rt lib` runs as always, so nothing is compiled that is not proved. It runs over a shadow of the kit (shadow.sh), where clang's place has a script that
# keeps the module which clang is handed; the kit's own clang then compiles that module for the target. What is proved is the module's source; that this
# compiler's code for a target does the same is tested (tests/port.sh), as it is for x86-64.
set -euo pipefail
cd "$(dirname "$0")/.."
targets="cortex-m0plus cortex-m4 cortex-m7 rv32imac aarch64 wasm32"
fail() { echo "port: $*" >&2; exit 1; }

# What clang is told of each target; docs/DECISIONS.md, "Other processors", has the reasons.
flags_of() { # TARGET
    case $1 in
    cortex-m0plus) echo "--target=thumbv6m-none-gnueabi -mcpu=cortex-m0plus -mfloat-abi=soft" ;;
    cortex-m4) echo "--target=thumbv7em-none-gnueabi -mcpu=cortex-m4 -mfloat-abi=soft -mno-unaligned-access" ;;
    cortex-m7) echo "--target=thumbv7em-none-gnueabi -mcpu=cortex-m7 -mfpu=fpv5-d16 -mfloat-abi=softfp -mno-unaligned-access" ;;
    rv32imac) echo "--target=riscv32-unknown-elf -march=rv32imac -mabi=ilp32 -mstrict-align" ;;
    aarch64) echo "--target=aarch64-none-elf -mcpu=generic -mstrict-align" ;;
    wasm32) echo "--target=wasm32-unknown-unknown" ;;
    *) return 1 ;;
    esac
}
level=${PORT_LEVEL:--O2} # another level is for measuring it: the stack is the inliner's (docs/DECISIONS.md)

if [ $# -eq 0 ]; then
    echo "usage: tools/port.sh TARGET.. | all, a target with the compiler's flags being one of"
    for t in $targets; do echo "  $t: $level $(flags_of "$t")"; done
    exit 2
fi
[ "$1" != all ] || set -- $targets
for t in "$@"; do flags_of "$t" >/dev/null || fail "no target '$t': there are $targets"; done

# ---- the kit
command -v rt >/dev/null || fail "no 'rt' on the PATH: the Rattle kit is wanted (README.md)"
bin=$(dirname "$(rt doc)")/toolchain/bin
clang=$bin/clang ar=$bin/llvm-ar
for f in "$clang" "$ar"; do [ -x "$f" ] || fail "the kit has no $f: is it the one that README.md names?"; done

work=$(mktemp -d)
trap 'rm -rf "$work"' EXIT

# ---- the module
tools/build.sh || fail "the library is not proved, so nothing is built"
tools/shadow.sh "$work/kit"
rm "$work/kit/toolchain/bin/clang"
cat >"$work/kit/toolchain/bin/clang" <<END
#!/bin/sh
for a in "\$@"; do case \$a in *.bc) cp "\$a" "$work/module.bc" ;; esac; done
exec "$clang" "\$@"
END
chmod +x "$work/kit/toolchain/bin/clang"
(cd crates/vosemaqe && "$work/kit/bin/rt" lib) >"$work/log" 2>&1 || { cat "$work/log" >&2; fail "the library is not proved, so nothing is built"; }
[ -s "$work/module.bc" ] || fail "rt handed clang no module (*.bc): this kit is not the one that README.md names"
mkdir -p target/port/x86-64
cp crates/vosemaqe/out/libvosemaqe.a target/port/x86-64/ # of the same module, for comparison
module=target/port/module.ll
"$clang" -Wno-override-module -S -emit-llvm -O0 -Xclang -disable-llvm-passes -x ir "$work/module.bc" -o "$module"
# What is said of x86-64 alone goes: triple, layout, processor, stack probes. Unwind tables go too: nothing here throws. A returned byte is zero-extended, as
# callers on Arm and RISC-V may rely on.
sed -e '/^target /d' -e 's/ "target-cpu"="[^"]*"//; s/ "probe-stack"="[^"]*"//; s/ "stack-probe-size"="[^"]*"//; s/ uwtable//' \
    -e 's/^define noundef i8 @vosemaqe_/define noundef zeroext i8 @vosemaqe_/' "$module" >"$work/module.ll"
# a kit that writes its module otherwise than this reads it must not pass in silence
exported() { sed -n "s/^define $1 @\(vosemaqe_[a-z_]*\)(.*/\1/p" "$work/module.ll" | sort; }
declared() { sed -n "s/^$1 \(vosemaqe_[a-z_]*\)(.*/\1/p" include/vosemaqe.h | sort; }
[ "$(exported '[^@]*')" = "$(declared '[a-z0-9_]*')" ] || fail "the module and include/vosemaqe.h name other functions"
[ "$(exported 'noundef zeroext i8')" = "$(declared uint8_t)" ] || fail "a returned byte of the module is not zero-extended"
# A struct in memory has no reference in it: the module has the places of its parts from references of eight bytes.
if grep -nE '^%[^ ]+ = type .*ptr|^  (%[^ ]+ = )?(load|store|alloca|getelementptr) [^%@]*\{[^%@]*ptr[^%@]*\}' "$work/module.ll" >&2; then
    fail "the module has a struct with a reference in memory, which lies otherwise on another processor"
fi
if grep -q -e '^target ' -e '"target-' -e '"probe-stack"' -e '"stack-probe' "$work/module.ll"; then fail "the module still names a processor"; fi

# ---- the archives
for t in "$@"; do
    out=target/port/$t
    mkdir -p "$out"
    cp "$work/module.ll" "$work/$t.ll"
    # Tag_ABI_VFP_args 3: no float is a parameter or a result here, so that this links with firmware of either float ABI
    case $t in cortex-*) echo 'module asm ".eabi_attribute 28, 3"' >>"$work/$t.ll" ;; esac
    # shellcheck disable=SC2046
    "$clang" $(flags_of "$t") $level -ffunction-sections -fdata-sections -fstack-usage -Wno-override-module -c -x ir "$work/$t.ll" -o "$work/vosemaqe.o"
    rm -f "$out/libvosemaqe.a"
    "$ar" rcsD "$out/libvosemaqe.a" "$work/vosemaqe.o"
    cp include/vosemaqe.h "$out/vosemaqe.h"
    sed -n 's/^[^:]*:\([^\t]*\)\t\([0-9]*\)\t.*/\2 \1/p' "$work/vosemaqe.su" | sort -k1,1nr -k2 >"$out/frames"
    echo "port: $out/libvosemaqe.a"
done
