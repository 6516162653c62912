#!/usr/bin/env bash
# The library, proved and compiled: tools/build.sh writes target/staticlib/libvosemaqe.a, and prints nothing unless it fails.
# `rt lib` checks the crate vosemaqe and those below it, over what its last run kept, and compiles what is proved. An archive that comes out as it was is not
# written again, so that what links it is not built again.
set -euo pipefail
cd "$(dirname "$0")/.."
command -v rt >/dev/null || { echo "build: no 'rt' on the PATH: the Rattle kit is wanted (README.md)" >&2; exit 1; }
log=$(mktemp)
trap 'rm -f "$log"' EXIT
made=crates/vosemaqe/out/libvosemaqe.a archive=target/staticlib/libvosemaqe.a
(cd crates/vosemaqe && rt lib) >"$log" 2>&1 || { cat "$log" >&2; echo "build: the library is not proved, so there is no archive" >&2; exit 1; }
mkdir -p "${archive%/*}"
cmp -s "$made" "$archive" || cp "$made" "$archive"
