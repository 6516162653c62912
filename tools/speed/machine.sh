#!/usr/bin/env bash
# Times the proved machine against a plain C switch with the same checks, then against the oracle's machine, natively (x86-64): tools/speed/machine.sh
# With the word count: the instructions of each row, proved and plain, by valgrind, which other work on the machine does not change.
set -euo pipefail
cd "$(dirname "$0")/../.."
[ -n "${VOSEMAQE_LIB:-}" ] || tools/build.sh
mkdir -p target/speed
cc -O3 -Iinclude -o target/speed/machine tools/speed/machine.c tools/speed/plain.c "${VOSEMAQE_LIB:-target/staticlib}"/libvosemaqe.a
if [ "${1:-}" = count ]; then
    for f in vosemaqe_run plain_run; do
        rm -f target/speed/$f target/speed/$f.*
        valgrind -q --tool=callgrind --callgrind-out-file=target/speed/$f --toggle-collect=$f --dump-before=row target/speed/machine 1 >target/speed/rows
    done
    printf '%-31s %11s %11s %6s\n' instructions proved plain ratio
    i=0
    tail -n +2 target/speed/rows | cut -c1-31 | while IFS= read -r name; do
        i=$((i + 1))
        proved=$(sed -n 's/^totals: //p' target/speed/vosemaqe_run.$i) plain=$(sed -n 's/^totals: //p' target/speed/plain_run.$i)
        printf '%-31s %11d %11d %6s\n' "$name" "$proved" "$plain" "$(awk "BEGIN { printf \"%.2f\", $proved / $plain }")"
    done
    exit
fi
target/speed/machine
cd tools/boundary
cargo build --offline --locked --release --quiet
exec target/release/machine_speed
