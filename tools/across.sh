#!/bin/sh
# Shortcuts made in a definition and in its code alike, so that the crate they stand in still proves them: the claim must refuse each.
# tools/across.sh [LABEL..]: the edits under tools/across/, each in a copy of the repository; one line for each, then a count.
set -u
root=$(cd "$(dirname "$0")/.." && pwd)
work=$(mktemp -d)
trap 'rm -rf "$work"' EXIT
all=0
refused=0

# the 'crate:', 'file:', 'old:' and 'new:' lines of an edit, as in crates/NAME/must-fail
apply() { # EDIT
    crate='' file='' old=''
    while IFS= read -r line; do
        case $line in
        'crate: '*) crate=${line#crate: } ;;
        'file: '*) file=crates/$crate/${line#file: } ;;
        'old: '*) old=${line#old: } ;;
        'new: '*)
            OLD=$old NEW=${line#new: } awk '
                { text = text $0 "\n" }
                END {
                    old = ENVIRON["OLD"]
                    at = index(text, old)
                    if (!at || index(substr(text, at + length(old)), old)) exit 3
                    printf "%s%s%s", substr(text, 1, at - 1), ENVIRON["NEW"], substr(text, at + length(old))
                }' "$file" >.edited || return 1
            mv .edited "$file"
            ;;
        esac
    done <"$1"
}

one() { # EDIT
    label=$(basename "$1" .edit)
    rm -rf "$work/copy"
    mkdir "$work/copy"
    # what the repository's own checks kept in out/, rt finds by itself
    (cd "$root" && tar --exclude=out -cf - crates crates.txt) | tar -C "$work/copy" -xf -
    cd "$work/copy" || exit 1
    all=$((all + 1))
    if ! apply "$1"; then
        echo "across $label: BAD EDIT: an old text is not there, or more than once"
        return
    fi
    began=$(date +%s)
    (cd crates/claim && rt check) >log 2>&1
    status=$?
    took=$(($(date +%s) - began))
    below=$(grep -m 1 -e '^rt: the library .* did not build' -e '^rt: mend these first' log)
    first=$(grep -m 1 -o 'proofs/[^ ]*: error: `[^`]*`' log)
    if [ -n "$below" ]; then
        echo "across $label: NOT REACHED: $below ($took s)"
    elif [ "$status" -eq 1 ] && [ -n "$first" ]; then
        echo "across $label: the claim refuses it, first at claim/$first ($took s)"
        refused=$((refused + 1))
    else
        echo "across $label: NOT REFUSED ($took s)"
    fi
}

if [ $# -eq 0 ]; then
    set -- $(cd "$root/tools/across" && ls ./*.edit | sed 's/\.edit$//; s/^\.\///')
fi
for label; do one "$root/tools/across/$label.edit"; done
echo "across: $refused of $all refused by the claim"
[ "$refused" -eq "$all" ]
