#!/usr/bin/env bash
# How often the check reads each word of a table: tests/c/reads.sh [ARCHIVE]. Natively on x86-64, under valgrind's lackey, which traces every load.
set -euo pipefail
cd "$(dirname "$0")/../.."
archive=${1:-target/staticlib/libvosemaqe.a}
[ $# -gt 0 ] || tools/build.sh
command -v valgrind >/dev/null || { echo "reads: no valgrind here"; exit 0; }
out=$(mktemp -d)
trap 'rm -rf "$out"' EXIT
${CC:-cc} -std=c11 -Wall -Wextra -Werror -O1 -Iinclude tests/c/reads.c "$archive" -o "$out/reads"
valgrind --tool=lackey --basic-counts=no --trace-mem=yes --log-file="$out/trace" "$out/reads" >"$out/where"
"$out/reads" judge "$out/where" "$out/trace"
