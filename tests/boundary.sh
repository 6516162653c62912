#!/usr/bin/env bash
# Everything that is run against the archive: tests/boundary.sh [fuzz calls, 200000] [ARCHIVE]. Builds and proves the archive if none is given;
# the C program on document 01's samples, how often the check reads each word of a table, the installed package from C and Rust, the examples and tests of
# the Rust crate, hostile calls, some of them under valgrind where there is one, the comparison with the Rust on 20,000 random jobs (tools/large.sh by
# itself runs 300,000), and the stack that the functions touch. Beside the archive, the routines that it does not have (tests/entries.sh).
set -euo pipefail
cd "$(dirname "$0")/.."
[ $# -gt 1 ] || tools/build.sh
archive=$(realpath "${2:-target/staticlib/libvosemaqe.a}")
tests/entries.sh
tests/c/run.sh "$archive"
[ "$(uname -m)" = x86_64 ] || { echo "boundary: the rest links the archive natively, on x86-64 alone"; exit 0; }
tests/c/reads.sh "$archive"
export VOSEMAQE_LIB=${archive%/*}
mkdir -p bindings/rust/target
# the comparison with the Rust beside the rest: each has a core
logs=$(mktemp -d)
trap 'rm -rf "$logs"' EXIT
(tools/large.sh 20000 && tools/stack.sh 200 | grep '^stack:') >"$logs/large" 2>&1 &
large=$!
tests/install.sh "$archive"
(cd bindings/rust && cargo test --offline --locked --quiet >target/test.log 2>&1) || { cat bindings/rust/target/test.log; exit 1; }
echo "bindings: $(grep -o '[0-9]* passed' bindings/rust/target/test.log | awk '{ n += $1 } END { print n }') examples and tests of the Rust crate passed"
if command -v rustfmt >/dev/null; then (cd bindings/rust && cargo fmt --check) || { echo "bindings: not in rustfmt's layout"; exit 1; }; fi
tools/fuzz.sh "${1:-200000}" 1 5000
wait "$large" || { cat "$logs/large"; exit 1; }
cat "$logs/large"
