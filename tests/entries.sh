#!/usr/bin/env bash
# Runs tests/entries/main.rattle over the sources, by the interpreter and compiled with checks. It is no crate of the repository, and not proved
# (docs/DECISIONS.md, "The two long forms"). What it calls is proved.
set -euo pipefail
cd "$(dirname "$0")/.."
work=$(mktemp -d)
trap 'rm -rf "$work"' EXIT
mkdir -p "$work/crates/entries/src"
for crate in crates/*/; do
    mkdir "$work/$crate"
    for part in src specs; do [ ! -d "$crate$part" ] || cp -R "$crate$part" "$work/$crate"; done
done
cp tests/entries/main.rattle "$work/crates/entries/src/main.rt"
{ cat crates.txt; echo "entries: records regs decode table value compile faults"; } >"$work/crates.txt"
count=$(grep -c '^    expect(' tests/entries/main.rattle)
(cd "$work/crates/entries" && rt try >"$work/log" 2>&1) || { cat "$work/log"; echo "entries: FAILED"; exit 1; }
grep -q '^run=ended .*runners=2' "$work/log" || { cat "$work/log"; echo "entries: FAILED: it was not run twice"; exit 1; }
echo "entries: $count expectations met, on the interpreter and compiled with checks"
