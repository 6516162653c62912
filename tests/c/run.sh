#!/usr/bin/env bash
# The C boundary from C: tests/c/run.sh [ARCHIVE]. Holds the header to the sources, compiles boundary.c against it and the archive, which is built and
# proved here if none is given, runs it and README's example, and looks at what the archive asks of its surroundings. Natively, on x86-64.
set -euo pipefail
cd "$(dirname "$0")/../.."
tests/c/names.sh
archive=${1:-target/staticlib/libvosemaqe.a}
[ $# -gt 0 ] || tools/build.sh
out=$(mktemp -d)
trap 'rm -rf "$out"' EXIT
flags="-std=c11 -Wall -Wextra -Werror -O1 -Iinclude"
${CC:-cc} $flags tests/c/boundary.c "$archive" -o "$out/boundary"
"$out/boundary"
sed -n '/^```c$/,/^```$/p' README.md | sed '/^```/d' >"$out/readme.c"
${CC:-cc} $flags "$out/readme.c" "$archive" -o "$out/readme"
grep -qF "\`$("$out/readme")\`" README.md || { echo "boundary: README's example does not write what README says"; exit 1; }
echo '#include "vosemaqe.h"' | ${CC:-cc} -x c++ -Wall -Wextra -Werror -Iinclude -fsyntax-only -
# No state: nothing is defined that can be written. Nothing is called but memset.
[ "$(nm -u "$archive" | grep ' U ' | sed 's/.* U //' | sort -u)" = memset ] || { echo "boundary: the archive calls more than memset"; exit 1; }
if nm "$archive" | grep ' [BbCDdGgSs] '; then echo "boundary: the archive has state"; exit 1; fi
[ "$(nm -g --defined-only "$archive" | sed -n 's/.* T //p' | sort)" = "$(sed -n 's/^[a-z0-9_]* \(vosemaqe_[a-z_]*\)(.*/\1/p' include/vosemaqe.h | sort)" ] \
    || { echo "boundary: the archive and the header name other functions"; exit 1; }
echo "boundary: the archive has the header's functions, no state, and calls memset alone"
