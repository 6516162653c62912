#!/usr/bin/env bash
# The comparison with the Rust, from nothing: the given files are the given ones, the oracle builds, document 01's samples and the
# list of differences hold, both modes agree up to that list, running agrees with evaluating, and the replay programs' vectors are the oracle's.
set -euo pipefail
cd "$(dirname "$0")/oracle"
fail() { echo "compare: FAILED: $*"; exit 1; }
run() { # LANE PROGRAM ..
    local log=target/log-$1
    shift
    "target/release/$@" >"$log" 2>&1 || { tail -n 20 "$log"; fail "$*"; }
    tail -n 1 "$log"
}

(cd given && sha256sum --check --strict --quiet SHA256SUMS) || fail "a file in given/ is not the one given"
[ "$(cd given && ls *.rs)" = "$(cut -c67- given/SHA256SUMS)" ] || fail "given/ and its list of files differ"
cargo build --offline --locked --release --quiet || fail "the oracle does not build"
# two lanes, a core each
second() {
    run 2 small 4
    run 2 meaning 40000 1
    run 2 vectors check ../../crates
    grep -q "5 of 5 programs stand" target/log-2 || fail "a replay program is missing"
}
second >target/lane 2>&1 &
other=$!
run 1 samples
run 1 probes
run 1 diff 100000 1
wait "$other" || { cat target/lane; exit 1; }
cat target/lane
echo "compare: all as expected"
