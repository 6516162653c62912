#!/usr/bin/env bash
# The library as its users get it: tests/install.sh [ARCHIVE]. Installs it into an empty folder and has a C program and a Rust program use that alone, found
# by pkg-config; where there is none the .pc file is read here. Then uninstalls it, which leaves no file.
set -euo pipefail
cd "$(dirname "$0")/.."
archive=$(realpath "${1:-target/staticlib/libvosemaqe.a}")
work=$(mktemp -d)
trap 'rm -rf "$work"' EXIT
fail() { echo "install: $*"; exit 1; }
command -v make >/dev/null || apt-get install -q -y make >/dev/null || fail "no make here"
make -s install PREFIX="$work/usr" ARCHIVE="$archive"
cp -R tests/install "$work/app"

unset VOSEMAQE_LIB
export PKG_CONFIG_PATH=$work/usr/lib/pkgconfig
if command -v pkg-config >/dev/null; then
    how=pkg-config
    flags=$(pkg-config --cflags --libs vosemaqe) version=$(pkg-config --modversion vosemaqe) rustdir=$(pkg-config --variable=rustdir vosemaqe)
else
    how="its pkg-config file"
    pc=$PKG_CONFIG_PATH/vosemaqe.pc
    eval "$(grep '^[a-z]*=' "$pc")"
    field() { eval "echo \"$(sed -n "s/^$1: //p" "$pc")\""; }
    flags="$(field Cflags) $(field Libs)" version=$(field Version)
    export VOSEMAQE_LIB=$libdir
fi

cd "$work/app"
want="version $(sed -n 's/^#define VOSEMAQE_VERSION //p' "$work/usr/include/vosemaqe.h"), 5 words, 3 steps: feed back"
# shellcheck disable=SC2086
timeout 60 ${CC:-cc} -std=c11 -Wall -Wextra -Werror feed_back.c $flags -o feed_back
[ "$(timeout 10 ./feed_back)" = "$want" ] || fail "the C program does not write '$want'"
sed "s|@RUSTDIR@|$rustdir|" Cargo.toml.in >Cargo.toml
timeout 300 cargo build --offline --quiet
[ "$(timeout 10 target/debug/feed_back)" = "$want" ] || fail "the Rust program does not write '$want'"
cd - >/dev/null
make -s uninstall PREFIX="$work/usr"
[ -z "$(find "$work/usr" -type f)" ] || fail "uninstall leaves $(find "$work/usr" -type f | head -n 3)"
echo "install: version $version, found by $how; a C and a Rust program write '$want'"
