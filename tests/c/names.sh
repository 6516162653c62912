#!/usr/bin/env bash
# include/vosemaqe.h is the sources': each number, limit, node kind and opcode by name and value, and each function's parameters, in order, by name and type;
# the Rust declarations have the same functions, and the version is one. No archive is needed, so this is part of the gate.
set -euo pipefail
cd "$(dirname "$0")/../.."
out=$(mktemp -d)
trap 'rm -rf "$out"' EXIT
fail() { echo "names: $*"; exit 1; }

# NAME VALUE of each `pub const NAME: TYPE = VALUE;` of a file, the name with a prefix
consts() { sed -n "s/^ *pub const \([A-Z0-9_]*\): [a-z0-9]* = \([0-9]*\);/$2\1 \2/p" "$1"; }
# NAME VALUE of each variant that has a number, as OutOfRange = 26 is OUT_OF_RANGE 26
variants() { sed -n 's/^    \([A-Z][A-Za-z]*\) = \([0-9]*\),$/\1 \2/p' "$1" | sed 's/\([a-z]\)\([A-Z]\)/\1_\2/g' | tr a-z A-Z; }
# DONE, the number of an answer without a fault
no_fault() { sed -n '/^pub fn number_of/,/^}/s/^ *Ok(()) => \([0-9]*\),$/DONE \1/p' "$1"; }
{
    consts crates/vosemaqe/src/lib.rt ''
    consts crates/faults/src/lib.rt ''
    variants crates/faults/src/lib.rt
    no_fault crates/faults/src/lib.rt
    consts crates/table/src/lib.rt NODE_
    consts crates/insns/src/forms.rt OP_
    printf '%s\n' 'NIL 0' 'BOOL 1' 'INT 2' 'FLOAT 3' 'NODE_WORDS 4'
} | sort >"$out/names"
{
    grep -o 'VOSEMAQE_[A-Z0-9_]* = [0-9]*' include/vosemaqe.h | sed 's/^VOSEMAQE_//; s/ = / /'
    sed -n 's/^#define VOSEMAQE_\([A-Z0-9_]*\) \([0-9][0-9]*\)$/\1 \2/p' include/vosemaqe.h
} | sort >"$out/header-names"
[ "$(wc -l <"$out/names")" -gt 130 ] || fail "the sources' constants were not found"
diff "$out/names" "$out/header-names" || fail "the header's values are not the sources' (< sources, > header)"

# the version: of the library, of the header (held above), of the latest entry of the changelog, of the Rust crate
version=$(sed -n 's/^VERSION //p' "$out/names")
version="$((version / 10000)).$((version / 100 % 100)).$((version % 100))"
[ "$(sed -n 's/^## \([0-9.]*\).*/\1/p' CHANGELOG.md | head -n 1)" = "$version" ] || fail "CHANGELOG.md does not begin with $version"
[ "$(sed -n 's/^version = "\(.*\)"$/\1/p' bindings/rust/Cargo.toml)" = "$version" ] || fail "bindings/rust/Cargo.toml is not $version"
grep -q "^pub const VERSION: u32 = $(sed -n 's/^VERSION //p' "$out/names");" bindings/rust/src/lib.rs || fail "the Rust crate's VERSION is not $version"

# the functions of a file from START to `;` or `{`, one to a line, in one form: NAME(PARAMETER, ..) -> RESULT
functions() { # FILE START
    tr '\n' ' ' <"$1" | sed 's/  */ /g' | grep -o "$2[^;{]*)\( -> u[0-9]*\)*" | sed "s/$2//; s/( /(/; s/,* *)/)/" | sort
}
# a slice is a pointer and a length; a length is 64 bits wide
functions crates/vosemaqe/src/lib.rt 'pub extern "C" fn ' \
    | sed 's/\([a-z_]*\): &\[\(u[0-9]*\)\]/\1: *const \2, \1_len: usize/g; s/\([a-z_]*\): &mut \[\(u[0-9]*\)\]/\1: *mut \2, \1_len: usize/g; s/&mut /*mut /g' \
    | sed 's/usize/u64/g' >"$out/functions"
functions bindings/rust/src/ffi.rs 'pub fn ' | sed 's/usize/u64/g' >"$out/rust"
tr '\n' ' ' <include/vosemaqe.h | sed 's/  */ /g' | grep -o '\(uint[0-9]*_t\|void\) vosemaqe_[a-z_]*([^;]*);' \
    | sed 's/^uint\([0-9]*\)_t \(.*\);$/\2 -> u\1/; s/^void \(.*\);$/\1/; s/(void)/()/' \
    | sed 's/const uint\([0-9]*\)_t \*\([a-z_]*\)/\2: *const u\1/g; s/uint\([0-9]*\)_t \*\([a-z_]*\)/\2: *mut u\1/g' \
    | sed 's/uint\([0-9]*\)_t \([a-z_]*\)/\2: u\1/g' | sort >"$out/header"
[ "$(wc -l <"$out/functions")" -eq 11 ] || fail "the exported functions were not found"
diff "$out/functions" "$out/header" || fail "the header's functions are not the sources' (< sources, > header)"
diff "$out/functions" "$out/rust" || fail "the Rust declarations are not the sources' (< sources, > Rust)"
echo "names: $(wc -l <"$out/names") values and $(wc -l <"$out/functions") functions of the header as in the sources, version $version"
