#!/usr/bin/env bash
# Times the proved check through its boundary against document 01's check in plain Rust, on the same tables, natively (x86-64): tools/speed/check.sh [rounds]
# Where there is valgrind, also how many instructions each takes a node, which no other work on the machine changes.
set -euo pipefail
cd "$(dirname "$0")/../.."
[ -n "${VOSEMAQE_LIB:-}" ] || tools/build.sh
cd tools/boundary
cargo build --offline --locked --release --quiet
target/release/check_speed "$@"
command -v valgrind >/dev/null || exit 0
said=$(mktemp -d)
trap 'rm -rf "$said"' EXIT
# one pass over the same tables by each, and one by neither: the difference is the check's
count() { # WAY
    valgrind --tool=callgrind --callgrind-out-file="$said/out" target/release/check_speed once "$1" >"$said/nodes" 2>"$said/said"
    sed -n 's/.*Collected : *//p' "$said/said"
}
none=$(count neither)
for way in rust proved; do
    all=$(count "$way")
    awk -v way="$way" -v n="$((all - none))" -v nodes="$(cat "$said/nodes")" 'BEGIN { printf "instructions a node, %s: %.1f\n", way, n / nodes }'
done
