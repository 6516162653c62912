#!/usr/bin/env bash
# Stack bytes of the exported functions, natively on x86-64: tools/stack.sh [random chains for each row]
# First as they were touched on a painted stack, then by the frames that the code takes. Fails where a call takes more than docs/STACK.md tells a caller.
set -euo pipefail
cd "$(dirname "$0")/.."
[ -n "${VOSEMAQE_LIB:-}" ] || tools/build.sh
cd tools/boundary
cargo build --offline --locked --release --quiet
target/release/stack "$@"
echo "frames, return address included:"
all=$(mktemp)
trap 'rm -f "$all"' EXIT
# linked whole, so that the calls have their targets
cc -shared -o "$all" -Wl,--whole-archive "${VOSEMAQE_LIB:-../../target/staticlib}/libvosemaqe.a" -Wl,--no-whole-archive
objdump -d --no-show-raw-insn --demangle "$all" | target/release/stack frames
