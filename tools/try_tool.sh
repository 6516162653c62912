#!/usr/bin/env bash
# Runs the tool over crates/cli/data without a proof, in seconds: whether it still writes what crates/cli/stdout has.
set -euo pipefail
cd "$(dirname "$0")/../crates/cli"
work=$(mktemp -d)
trap 'rm -rf "$work"' EXIT
data=()
for f in data/*; do data+=(--data "${f##*/}=$f"); done
mapfile -t words <args
rt try "${data[@]}" -- "${words[@]}" </dev/null >"$work/out" 2>"$work/said" || { tail -n 20 "$work/said"; echo "try_tool: FAILED"; exit 1; }
diff stdout "$work/out" >"$work/differ" || { head -n 20 "$work/differ"; echo "try_tool: FAILED (< crates/cli/stdout, > the tool)"; exit 1; }
echo "try_tool: the tool writes what crates/cli/stdout has"
