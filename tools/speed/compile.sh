#!/usr/bin/env bash
# Times the proved compile through its boundary against the house-mode Rust from the same tables, natively (x86-64): tools/speed/compile.sh [rounds]
set -euo pipefail
cd "$(dirname "$0")/../.."
[ -n "${VOSEMAQE_LIB:-}" ] || tools/build.sh
cd tools/boundary
cargo build --offline --locked --release --quiet
exec target/release/compile_speed "$@"
