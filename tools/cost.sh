#!/usr/bin/env bash
# CPU seconds of the proof of each crate and of its must-fail edits, for the note of a change: tools/cost.sh [CRATE ..]
# It works in a copy of the repository, over a shadow of the kit (shadow.sh), so that nothing that a check has kept is taken. What a crate stands on is proved
# first and not counted; the crate is then proved from nothing, one check at a time, and its edits are tried. All crates of crates.txt if none is named.
set -euo pipefail
cd "$(dirname "$0")/.."
copy=$(mktemp -d)
trap 'rm -rf "$copy"' EXIT
tools/shadow.sh "$copy/kit"
rt=$copy/kit/bin/rt
tar --exclude=out -cf - crates crates.txt | tar -C "$copy" -xf -
cd "$copy"
export RT_JOBS=1

# user and system seconds of a command, in a folder
cpu() { # FOLDER COMMAND ..
    local folder=$1 TIMEFORMAT='%U %S'
    shift
    if ! (cd "$folder" && { time "$@" >"$copy/said" 2>&1; } 2>"$copy/took"); then
        tail -n 20 said >&2
        echo "cost: '$*' failed" >&2
        exit 1
    fi
    awk '{ printf "%.1f\n", $1 + $2 }' took
}

[ $# -gt 0 ] || set -- $(sed 's/#.*//; s/[ :].*//' crates.txt)
printf '%-16s %8s %6s %8s\n' crate proof edits 'of them'
for crate; do
    # the crates below, and the crate itself, whose own proof is then made again
    cpu "crates/$crate" "$rt" check >/dev/null
    rm -rf "crates/$crate/out/incremental"
    proof=$(cpu "crates/$crate" "$rt" check --jobs 1)
    edits=0 tried=0
    if [ -d "crates/$crate/must-fail" ]; then
        edits=$(find "crates/$crate/must-fail" -name '*.edit' | wc -l)
        tried=$(cpu . "$rt" must-fail "$crate")
    fi
    printf '%-16s %8s %6s %8s\n' "$crate" "$proof" "$edits" "$tried" | tee -a rows
done
awk '{ p += $2; n += $3; e += $4 } END { printf "%-16s %8.1f %6d %8.1f\n", "all", p, n, e }' rows
