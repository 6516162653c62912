#!/usr/bin/env bash
# A second kit of links to the installed one, for a tool that wants its own: tools/shadow.sh FOLDER. Its `rt`, FOLDER/bin/rt, keeps its work beside FOLDER,
# where no other checkout's lies, and the tool may replace any of its files (tools/port.sh puts a script in the place of clang).
set -euo pipefail
command -v rt >/dev/null || { echo "shadow: no 'rt' on the PATH: the Rattle kit is wanted (README.md)" >&2; exit 1; }
kit=$(dirname "$(rt doc)") to=$1
# Links to what stands in one folder of the kit, but for some names.
links() { # FOLDER NAME..
    local from=$kit/$1 at=$to/$1 f
    shift
    mkdir -p "$at"
    for f in "$from"/*; do
        case " $* " in *" ${f##*/} "*) ;; *) ln -s "$f" "$at/" ;; esac
    done
}
links . bin toolchain
links toolchain bin
links toolchain/bin
# rt takes the folder above its own file for the kit, links followed: it is copied
links bin rt rtlib.py
cp "$kit/bin/rt" "$kit/bin/rtlib.py" "$to/bin/"
