#!/usr/bin/env bash
# The large comparison through the C boundary, by hand: tools/large.sh [random jobs, 300000] [seed, 1] [nodes of the small trees, 4]
# Builds the archive and the driver (tools/boundary), natively on x86-64, prints counts, and fails on any difference, with its smallest input.
set -euo pipefail
cd "$(dirname "$0")/.."
[ -n "${VOSEMAQE_LIB:-}" ] || tools/build.sh
cd tools/boundary
cargo build --offline --locked --release --quiet
exec target/release/large "$@"
