#!/usr/bin/env bash
# Hostile calls of every function through the C boundary, by hand: tools/fuzz.sh [calls, 10000000] [seed, 1] [calls under valgrind, 20000]
# Builds the archive and the driver (tools/fuzz), natively on x86-64; prints counts and time; fails on the first answer or byte that is not the oracle's.
set -euo pipefail
cd "$(dirname "$0")/.."
[ -n "${VOSEMAQE_LIB:-}" ] || tools/build.sh
cd tools/fuzz
cargo build --offline --locked --release --quiet
for side in above below; do
    status=$(bash -c 'target/release/fuzz "touch-$1" >/dev/null 2>&1; echo $?' bash "$side" 2>/dev/null)
    [ "$status" -eq 139 ] || { echo "fuzz: a byte $side a lent buffer can be read: status $status"; exit 1; }
done
target/release/fuzz "${1:-10000000}" "${2:-1}"
if command -v valgrind >/dev/null; then
    valgrind --quiet --error-exitcode=9 target/release/fuzz "${3:-20000}" "${2:-1}" | sed 's/^fuzz:/fuzz under valgrind:/'
else
    echo "fuzz: no valgrind here"
fi
