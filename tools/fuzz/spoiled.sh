#!/usr/bin/env bash
# Tries the driver on three spoiled libraries (spoiled.c), each of which it has to catch: tools/fuzz/spoiled.sh, after tools/fuzz.sh
set -euo pipefail
cd "$(dirname "$0")"
archive=$(realpath "${VOSEMAQE_LIB:-../../target/staticlib}/libvosemaqe.a")
out=$(mktemp -d)
trap 'rm -rf "$out"' EXIT
# the statuses that show it: 1 where an answer or a margin is wrong, 139 where the page beside the buffer stops it
for n in 1:vosemaqe_run:1 2:vosemaqe_patch:139 '3:vosemaqe_patch:1 139'; do
    IFS=: read -r which name want <<<"$n"
    rm -f "$out"/*.o "$out"/*.a
    (cd "$out" && ar x "$archive" && objcopy --redefine-sym "$name=inner" vosemaqe.o)
    cc -std=c11 -O1 -DSPOILED="$which" -I../../include -c spoiled.c -o "$out/spoiled.o"
    ar rcs "$out/libvosemaqe.a" "$out/vosemaqe.o" "$out/spoiled.o"
    VOSEMAQE_LIB=$out CARGO_TARGET_DIR=$out/target cargo build --offline --locked --release --quiet
    status=$(bash -c '"$1" 200000 1 >/dev/null 2>&1; echo $?' bash "$out/target/release/fuzz" 2>/dev/null)
    case " $want " in *" $status "*) ;; *) echo "spoiled: library $which is not caught: status $status, not $want"; exit 1 ;; esac
done
echo "spoiled: three of three are caught"
