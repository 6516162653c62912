#!/usr/bin/env bash
# The library for other processors, run: tests/port.sh [TARGET..], all targets of tools/port.sh if none is named. For each one
#   - a stream of calls of every exported function (port/stream.c) gives the answers and leaves the bytes that the x86-64 archive gives and leaves;
#   - no call takes more stack than docs/STACK.md tells its caller (port/stack.c);
#   - the archive has no state and asks for what docs/PORTING.md says.
# Then the commands of docs/PORTING.md build the firmware of tests/firmware, which is run. Emulators and cross compilers are Debian's packages, installed here
# if they can be had; a target that lacks one is built, not run, and the last line says so.
#   tests/port.sh table [TARGET..] prints the tables of docs/STACK.md and docs/PORTING.md anew, and holds nothing to them.
# JOBS=n in the environment: the jobs of the stream, a multiple of 10.
set -euo pipefail
cd "$(dirname "$0")/.."
jobs=${JOBS:-10000}
table=
[ "${1:-}" != table ] || { table=1; shift; }
all=$({ tools/port.sh || true; } | sed -n 's/^  \([a-z0-9-]*\): .*/\1/p' | paste -s -d ' ')
# shellcheck disable=SC2086
[ $# -gt 0 ] || set -- $all
for t in "$@"; do case " $all " in *" $t "*) ;; *) echo "port: no target '$t': there are $all"; exit 2 ;; esac; done
[ "$(uname -m)" = x86_64 ] || { echo "port: the answers are held to the x86-64 archive's, on x86-64 alone"; exit 0; }

work=$(mktemp -d)
trap 'rm -rf "$work"' EXIT
fail() { echo "port: $*"; exit 1; }
say() { [ -n "$table" ] || echo "port: $*"; }

# ---- what a target needs beside the kit: COMMAND:PACKAGE ..
needs_of() { # TARGET
    case $1 in
    cortex-*) echo "arm-none-eabi-gcc:gcc-arm-none-eabi qemu-system-arm:qemu-system-arm" ;;
    rv32imac) echo "riscv64-unknown-elf-gcc:gcc-riscv64-unknown-elf qemu-riscv32:qemu-user" ;;
    aarch64) echo "qemu-system-aarch64:qemu-system-arm" ;;
    wasm32) echo "wasm-ld:lld node:nodejs" ;;
    esac
}
lacks() { # TARGET: the packages of what is not there
    local n
    for n in $(needs_of "$1"); do command -v "${n%:*}" >/dev/null || echo "${n#*:}"; done
}
missing=$(for t in "$@"; do lacks "$t"; done | sort -u | tr '\n' ' ')
if [ -n "$missing" ] && [ "$(id -u)" = 0 ] && command -v apt-get >/dev/null; then
    say "installing $missing"
    # one by one: a package that cannot be had takes no other with it
    get() { timeout 180 apt-get install -y --no-install-recommends "$1" >/dev/null 2>&1; }
    if timeout 60 apt-get update >/dev/null 2>&1; then
        for p in $missing; do get "$p" || say "not installed: $p"; done
    else
        say "not installed: apt-get update fails"
    fi
fi

tools/port.sh "$@" >"$work/log" || { cat "$work/log"; exit 1; }
kit=$(dirname "$(rt doc)")/toolchain/bin
[ -x "$kit/ld.lld" ] || fail "the kit has no $kit/ld.lld: is it the one that README.md names?"
for c in "${CC:-cc}" readelf nm; do command -v "$c" >/dev/null || fail "no '$c' here: a C compiler and binutils are wanted"; done

# ---- building and running a program of tests/port
# Freestanding: a chip has no C library. The kit's clang has no headers; stdint.h is that of the machine's compiler.
flags="-std=c11 -Wall -Wextra -Werror -O2 -ffreestanding -DJOBS=$jobs"
headers="-isystem $(${CC:-cc} -print-file-name=include)"
quiet="-nographic -monitor none -serial none -semihosting"

# Firmware as people compile it: that for the Cortex-M7 passes floats in registers, the others do not.
cross() { # TARGET COMPILER BOARD FLAGS..
    local t=$1 compiler=$2 sources="tests/port/$program.c tests/port/$3.c tests/port/memory.c"
    shift 3
    # its linker's warnings, of libgcc's files and of one segment for code and data, are shown only where it fails
    # shellcheck disable=SC2086
    "$compiler" $flags "$@" -nostdlib "-Itarget/port/$t" $sources "target/port/$t/libvosemaqe.a" -lgcc -o "$work/$program-$t" 2>"$work/log" \
        || { cat "$work/log"; fail "$t: $program does not link"; }
}
by_clang() { # TARGET FLAGS..: objects by the kit's clang
    local t=$1 c
    shift
    # shellcheck disable=SC2086
    for c in "$program" memory ${board:-}; do "$kit/clang" "$@" $flags $headers "-Itarget/port/$t" -c "tests/port/$c.c" -o "$work/$c-$t.o"; done
}
build() { # TARGET, with $program
    local board=
    case $1 in
    cortex-m0plus) cross "$1" arm-none-eabi-gcc cortex_m -mcpu=cortex-m0plus -mthumb -mfloat-abi=soft -T tests/port/cortex_m.ld ;;
    cortex-m4) cross "$1" arm-none-eabi-gcc cortex_m -mcpu=cortex-m4 -mthumb -mfloat-abi=soft -T tests/port/cortex_m.ld ;;
    cortex-m7) cross "$1" arm-none-eabi-gcc cortex_m -mcpu=cortex-m7 -mthumb -mfpu=fpv5-d16 -mfloat-abi=hard -T tests/port/cortex_m.ld ;;
    rv32imac) cross "$1" riscv64-unknown-elf-gcc rv32 -march=rv32imac -mabi=ilp32 ;;
    aarch64)
        board=aarch64
        by_clang "$1" --target=aarch64-none-elf -mstrict-align
        "$kit/ld.lld" -T tests/port/aarch64.ld "$work/$program-$1.o" "$work/aarch64-$1.o" "$work/memory-$1.o" "target/port/$1/libvosemaqe.a" \
            -o "$work/$program-$1"
        ;;
    wasm32)
        by_clang "$1" --target=wasm32-unknown-unknown
        wasm-ld --no-entry --export=test --allow-undefined -z stack-size=2097152 "$work/$program-$1.o" "$work/memory-$1.o" "target/port/$1/libvosemaqe.a" \
            -o "$work/$program-$1"
        ;;
    esac
}
# The Cortex-M0 of the emulator stands for the M0+: the same instructions. Its board has 16 KiB of RAM, so it is told otherwise.
emulator_of() { # TARGET: the command that runs a program
    case $1 in
    cortex-m0plus) echo "qemu-system-arm -M microbit -global nrf51-soc.sram-size=4194304 -global nrf51-soc.flash-size=4194304 $quiet -kernel" ;;
    cortex-m4) echo "qemu-system-arm -M mps2-an386 $quiet -kernel" ;;
    cortex-m7) echo "qemu-system-arm -M mps2-an500 $quiet -kernel" ;;
    rv32imac) echo "qemu-riscv32 -cpu sifive-e31" ;;
    aarch64) echo "qemu-system-aarch64 -M virt -cpu cortex-a53 -nic none $quiet -kernel" ;;
    wasm32) echo "node tests/port/wasm.mjs" ;;
    esac
}
run() { # TARGET PROGRAM OUT: semihosting writes to standard error
    # shellcheck disable=SC2046
    timeout 600 $(emulator_of "$1") "$2" >"$3" 2>&1 || { tail -n 5 "$3"; fail "$1: ${2##*/} failed"; }
}

# ---- what is held, target by target
object() { "$kit/llvm-ar" p "target/port/$1/libvosemaqe.a" >"$work/object"; } # TARGET
sizes() { # TARGET: bytes of code, of constants, of writable data
    local code=0 constants=0 data=0 flag size
    object "$1"
    if [ "$1" = wasm32 ]; then node tests/port/wasm.mjs "$work/object" sizes && return; fi
    while read -r flag size; do
        case $flag in *W*) data=$((data + 16#$size)) ;; *X*) code=$((code + 16#$size)) ;; *) constants=$((constants + 16#$size)) ;; esac
    done < <(readelf -SW "$work/object" | awk 'NF > 6 && $(NF - 3) ~ /A/ { print $(NF - 3), $(NF - 5) }')
    echo "$code $constants $data"
}
asks() { # TARGET: what the archive wants to be linked with
    object "$1"
    if [ "$1" = wasm32 ]; then node tests/port/wasm.mjs "$work/object" asks; else nm -u "$work/object" | sed -n 's/^ *U //p' | sort | paste -s -d ' '; fi
}
grouped() { sed -E ':a; s/([0-9])([0-9]{3})(,|$)/\1,\2\3/; ta' <<<"$1"; } # NUMBER
# a row of docs/PORTING.md's table
port_row() { # TARGET
    local code constants data wanted
    read -r code constants data < <(sizes "$1")
    wanted=$(asks "$1")
    echo "| $1 | $(grouped "$code") | $(grouped "$constants") | $data | ${wanted:+\`}${wanted:-nothing}${wanted:+\`} |"
}
hold_archive() { # TARGET
    local code constants data told
    read -r code constants data < <(sizes "$1")
    [ "$code" -gt 0 ] && [ "$data" = 0 ] || fail "$1: the archive has no code, or has state: $code bytes of code, $data of writable data"
    told=$(sed -n "s/^| $1 | [0-9,]* | [0-9,]* | [0-9]* | \(.*\) |\$/\1/p" docs/PORTING.md)
    [ "$(port_row "$1" | sed 's/.* | \(.*\) |$/\1/')" = "$told" ] || fail "$1: the archive asks for '$(asks "$1")', docs/PORTING.md says '$told'"
}
# docs/STACK.md's reserve: BYTES [BYTES-A-LEVEL]
reserve() { sed -n "s/^| $1 | \`$2\` .*| \([0-9,]*\)\( + \([0-9,]*\) d\)\{0,1\} |\$/\1 \3/p" docs/STACK.md | tr -d ,; } # TARGET FUNCTION
hold_stack() { # TARGET OUT
    local over=0 lines=0 name depth bytes rest level
    while read -r _ name depth bytes _; do
        lines=$((lines + 1))
        read -r rest level < <(reserve "$1" "$name") || fail "docs/STACK.md has no reserve for $name on $1"
        [ "$bytes" -gt $((rest + ${level:-0} * depth)) ] || continue
        echo "port: $1: $name took $bytes bytes of stack at depth $depth; docs/STACK.md tells a caller $((rest + ${level:-0} * depth))"
        over=1
    done < <(grep '^stack ' "$2")
    [ "$lines" -ge 12 ] || fail "$1: the stack was not measured"
    [ "$over" = 0 ] || fail "$1: more stack than docs/STACK.md tells a caller; 'tests/port.sh table' prints its table anew"
}

# ---- the reference: the stream on this machine, with the archive that rt makes. It has to call every function and to meet every number.
native="${CC:-cc} -std=c11 -Wall -Wextra -Werror -O2 -DJOBS=$jobs -Iinclude"
$native -c tests/port/stream.c -o "$work/stream.o"
[ "$(nm -u "$work/stream.o" | sed -n 's/^ *U \(vosemaqe_.*\)/\1/p' | sort)" = \
    "$(sed -n 's/^[a-z0-9_]* \(vosemaqe_[a-z_]*\)(.*/\1/p' include/vosemaqe.h | sort)" ] || fail "the stream does not call every function of the header"
$native "$work/stream.o" tests/port/hosted.c target/port/x86-64/libvosemaqe.a -o "$work/native"
"$work/native" >"$work/native.out"
numbers=$(sed -n '/^enum vosemaqe_number/,/^}/s/^ *VOSEMAQE_[A-Z_]* = \([0-9]*\).*/\1/p' include/vosemaqe.h | paste -s -d ' ')
[ "$(sed -n 's/^numbers met: //p' "$work/native.out")" = "$numbers" ] || fail "the stream does not meet every number of the header: $numbers"

# ---- the targets
ran='' unrun=''
: >"$work/stack-rows"
: >"$work/port-rows"
one() { # TARGET
    local program
    for program in stream stack; do
        [ "$1 $program" != "wasm32 stack" ] || continue # its stack is the engine's
        build "$1"
        run "$1" "$work/$program-$1" "$work/$program-$1.out"
    done
    cmp -s "$work/native.out" "$work/stream-$1.out" || {
        { diff "$work/native.out" "$work/stream-$1.out" || true; } | head -n 4
        fail "$1: the stream's answers are not the x86-64 archive's"
    }
    if [ -z "$table" ]; then
        hold_archive "$1"
        [ "$1" = wasm32 ] || hold_stack "$1" "$work/stack-$1.out"
        return
    fi
    port_row "$1" >>"$work/port-rows"
    [ "$1" = wasm32 ] || awk -v target="$1" -v heads="$([ -s "$work/stack-rows" ] || echo 1)" -f tests/port/rows.awk "$work/stack-$1.out" >>"$work/stack-rows"
}
for t in "$@"; do
    if [ -n "$(lacks "$t")" ]; then
        unrun="$unrun $t"
        [ -n "$table" ] || [ "$t" = wasm32 ] || hold_archive "$t"
        echo "port: $t: built and NOT RUN: it wants Debian's $(lacks "$t" | paste -s -d ' ')"
    else
        one "$t"
        ran="$ran $t"
    fi
done
if [ -n "$table" ]; then
    cat "$work/stack-rows"
    printf '\n%s\n%s\n' '| target | code | constants | writable data | asks for |' '|---|---|---|---|---|'
    cat "$work/port-rows"
    exit 0
fi

# ---- the firmware, by the document's own commands; with too little stack it has to stop, not to answer
firmware() { # SED-SCRIPT OUT
    sed -n '/^```sh$/,/^```$/p' docs/PORTING.md | sed -e '/^```/d' -e "$1" >"$work/commands"
    timeout 300 bash -e "$work/commands" >"$2" 2>&1
}
case " $ran " in *" cortex-m4 "*)
    firmware '' "$work/firmware" || { cat "$work/firmware"; fail "the firmware of docs/PORTING.md does not run"; }
    written=$(grep '^firmware: ' "$work/firmware") || written=nothing
    grep -qF "\`$written\`" docs/PORTING.md || fail "the firmware writes '$written', docs/PORTING.md says otherwise"
    if firmware 's/-lgcc/& -Wl,--defsym=stack_bytes=512/' "$work/firmware-small" || ! grep -q '^FAULT' "$work/firmware-small"; then
        fail "the firmware with 512 bytes of stack does not stop with a fault"
    fi
    say "the firmware of docs/PORTING.md writes '$written'; with too little stack it stops"
    ;;
esac
[ -z "$ran" ] || say "$jobs jobs of the stream as on x86-64, stack within docs/STACK.md:$ran"
[ -z "$unrun" ] || say "BUILT AND NOT RUN:$unrun"
