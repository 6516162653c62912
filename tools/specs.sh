#!/usr/bin/env bash
# What a reader has to believe, in files and lines of specs/, comments and imports included:
#   tools/specs.sh [CRATE, vosemaqe]   the files that the contracts of a crate rest on, directly or through one another
#   tools/specs.sh all                 each crate's lines, as a table
#   tools/specs.sh write               puts the figures into docs/TRUST.md, between its two marks
#   tools/specs.sh check               fails if docs/TRUST.md has other figures; tools/claims.sh runs it, so the gate does
# A file whose first line begins with "Plumbing" ties code to definitions and is counted apart: where only inner contracts cite it, a wrong one can only make
# a proof fail.
set -euo pipefail
cd "$(dirname "$0")/.."
trust=docs/TRUST.md

# LINES FILE [plumbing] for each file given, then the two sums
count() {
    awk '
        function done() { if (!name) return; printf "%6d %s%s\n", lines, name, kind ? "  (plumbing)" : ""; sum[kind] += lines; files[kind]++ }
        FNR == 1 { done(); name = FILENAME; lines = 0; kind = /^-- Plumbing/ }
        { lines++ }
        END { done(); printf "%6d in %d files to be read, %d in %d of plumbing\n", sum[0], files[0], sum[1], files[1] }' "$@"
}

# each crate's lines, as a table
by_crate() {
    printf '| crate | lines to be read | plumbing |\n|---|---|---|\n'
    for c in $(sed 's/#.*//; s/:.*//' crates.txt); do
        ls "crates/$c"/specs/*.antt >/dev/null 2>&1 || continue
        find "crates/$c/specs" -name '*.antt' ! -name Lib.antt | sort | xargs -r awk -v crate="$c" '
            FNR == 1 { kind = /^-- Plumbing/ }
            { lines[kind]++ }
            END { printf "| %s | %d | %d |\n", crate, lines[0], lines[1] }'
    done
}

# the files that the contracts of a crate rest on
reached() { # CRATE
    local f crate name
    local -A seen=()
    local todo=(crates/"$1"/src/*.rt)
    while [ ${#todo[@]} -gt 0 ]; do
        f=${todo[-1]}
        unset 'todo[-1]'
        [ -z "${seen[$f]-}" ] || continue
        seen[$f]=1
        while read -r crate name; do
            [ ! -e "crates/$crate/specs/$name.antt" ] || todo+=("crates/$crate/specs/$name.antt")
        done < <(sed -nE 's/^(ghost |unfoldable )?(pub )?use Rattle\.([a-z0-9_]+)\.specs\.([A-Za-z0-9]+).*/\3 \4/p' "$f")
    done
    # shellcheck disable=SC2046
    count $(printf '%s\n' "${!seen[@]}" | grep 'antt$' | sort)
}

# what docs/TRUST.md has between its marks
figures() {
    printf '| what | lines |\n|---|---|\n'
    printf '| the C boundary: `tools/specs.sh` |%s |\n' "$(reached vosemaqe | tail -n 1 | sed 's/^ */ /')"
    printf '| the agreement of words and tree: `tools/specs.sh agree` |%s |\n\n' "$(reached agree | tail -n 1 | sed 's/^ */ /')"
    by_crate
}
# the document with these figures
renewed() {
    figures >"$1"
    awk -v figures="$1" '
        /^<!-- tools\/specs.sh write -->$/ { print; print ""; while ((getline line < figures) > 0) print line; print ""; skip = 1; next }
        /^<!-- end -->$/ { skip = 0 }
        !skip { print }' "$trust"
}

case ${1:-vosemaqe} in
all) by_crate ;;
write | check)
    room=$(mktemp -d)
    trap 'rm -rf "$room"' EXIT
    renewed "$room/figures" >"$room/new"
    if [ "$1" = write ]; then
        cat "$room/new" >"$trust"
    elif ! diff "$trust" "$room/new" >"$room/differ"; then
        head -n 6 "$room/differ"
        echo "specs: $trust has other figures than the tree: run tools/specs.sh write"
        exit 1
    fi
    ;;
*) reached "${1:-vosemaqe}" ;;
esac
