#!/usr/bin/env bash
# The documents name nothing that is not there: tools/claims.sh
# docs/CLAIMS.md, whole:
# - an edit stands in crates/NAME/must-fail, and each edit there is named;
# - a file of specs/ or proofs/ stands in the crate named before it, else in a crate of its section;
# - a name in backticks is defined in the file beside it ("specs/File `name`", "`name` (crate specs/File)"), else in specs/, proofs/ or src/ of some crate.
# In a table the columns decide, in a list the words before the colon: 'edit' for edits, the others for files and names.
# Every document: a path is there, and so is a file of specs/ or proofs/ after the name of a crate.
# docs/TRUST.md: its tables of lines are as tools/specs.sh counts them.
set -euo pipefail
cd "$(dirname "$0")/.."
claims=docs/CLAIMS.md
index=$(mktemp)
trap 'rm -f "$index"' EXIT

# EDIT crate label; DEF crate file name; CODE crate name; CRATE name; FILE path
{
    for c in crates/*/; do c=${c#crates/} && echo "CRATE ${c%/}"; done
    find -L README.md docs tools tests include bindings crates samples .ci \( -name target -o -name out -o -name .git \) -prune -o -print | sed 's/^/FILE /'
    ls crates/*/must-fail/*.edit | sed -E 's,^crates/([^/]*)/must-fail/(.*)\.edit$,EDIT \1 \2,'
    find crates/*/specs crates/*/proofs -name '*.antt' -exec awk '
        FNR == 1 { split(FILENAME, p, "/"); c = p[2]; f = substr(FILENAME, length("crates/" c "/") + 1); sub(/\.antt$/, "", f); print "DEF", c, f, "." }
        /^ *--/ || /^use / { next }
        {
            gsub(/^ +/, "")
            while ($1 ~ /^(pub|abbrev|unfoldable|opaque|private)$/) sub(/^[a-z]+ /, "")
            if ($1 ~ /^(record|data|ruleset)$/) { print "DEF", c, f, $2; next }
            for (i = 1; i <= NF && $i !~ /[({.})=]/; i++) if ($(i + 1) == ":") { for (k = 1; k <= i; k++) print "DEF", c, f, $k; break }
        }' {} +
    find crates/*/src -name '*.rt' -exec awk '
        FNR == 1 { split(FILENAME, p, "/"); c = p[2] }
        match($0, /(fn|struct|enum|const|type|mod) [A-Za-z0-9_]+/) { n = substr($0, RSTART, RLENGTH); sub(/.* /, "", n); print "CODE", c, n }
        match($0, /^    [A-Z][A-Za-z0-9]*/) { print "CODE", c, substr($0, 5, RLENGTH - 4) }' {} +
} >"$index"

awk -v index_file="$index" -v claims="$claims" '
    FILENAME == index_file {
        if ($1 == "CRATE") crate[$2] = 1
        if ($1 == "FILE") path[$2] = 1
        if ($1 == "EDIT") { edit[$2, $3] = 1; where[$3] = where[$3] " " $2; edits[++nedits] = $2 " " $3 }
        if ($1 == "DEF") { file[$2, $3] = 1; def[$2, $3, $4] = 1; known[$4] = 1; dirs($2, $3) }
        if ($1 == "CODE") { code[$2, $3] = 1; known[$3] = 1 }
        next
    }
    function dirs(c, f) { while (sub(/\/[^\/]*$/, "", f)) file[c, f] = 1 }
    function bad(what) { printf "%s:%d: %s\n", doc, line, what; wrong++ }
    # the last word of a text, without a possessive, a module, a quote or a bracket
    function last(t) { gsub(/[`(]/, "", t); sub(/ $/, "", t); sub(/^.*[^A-Za-z0-9_:'"'"']/, "", t); sub(/('"'"'s?)?$/, "", t); sub(/::.*/, "", t); return t }
    function defined(name, f,    k, ok) { ok = 0; for (k in at) if ((k, f, name) in def) ok = 1; if (!ok) bad("no " name " in " f) }

    # files and names of a text
    function look(t,    c, f, before, b, name, ok, k) {
        paths(t)
        while (match(t, /(specs|proofs)\/[A-Za-z0-9_\/]*[A-Za-z0-9_]/)) {
            before = substr(t, 1, RSTART - 1); f = substr(t, RSTART, RLENGTH); t = substr(t, RSTART + RLENGTH)
            # part of a path: looked at already
            if (before ~ /[A-Za-z0-9_*]\/$/) { sub(/^\.antt/, "", t); continue }
            c = last(before)
            delete at
            if (c in crate) { if ((c, f) in file) at[c] = 1; else bad("no " f " in crate " c) }
            else if (whole) {
                for (k in section) if (section[k] && (k, f) in file) at[k] = 1
                ok = 0; for (k in at) ok = 1
                if (!ok) bad("no " f " in a crate of the section")
            }
            if (!whole) continue
            # names in brackets before it: `a`, `b` (crate specs/File)
            b = before
            if (sub(/ \([a-z0-9_]+ $/, "", b))
                while (match(b, /`[^` ]+`(, | and )?$/)) { name = substr(b, RSTART + 1); sub(/`.*/, "", name); defined(name, f); b = substr(b, 1, RSTART - 1) }
            names(before)
            # names that follow at once
            while (match(t, /^( and |[ ,])*`[^` ]+`/)) { name = substr(t, 1, RLENGTH); t = substr(t, RLENGTH + 1); gsub(/^[^`]*`|`$/, "", name); defined(name, f) }
        }
        if (whole) names(t)
    }
    # paths from the top
    function paths(t,    p) {
        while (match(t, /(crates|docs|tools|tests|include|bindings|samples)\/[A-Za-z0-9_.\/*-]+/)) {
            p = substr(t, RSTART, RLENGTH)
            if (RSTART > 1 && substr(t, RSTART - 1, 1) ~ /[A-Za-z0-9_\/.]/) p = ""
            t = substr(t, RSTART + RLENGTH)
            sub(/[.\/]+$/, "", p)
            if (p != "" && p !~ /\*|NAME|\/(target|out)\// && !(p in path)) bad("no file " p)
        }
    }
    # names in backticks that stand beside no file
    function names(t,    name, n, part) {
        while (match(t, /`[^`]+`/)) {
            name = substr(t, RSTART + 1, RLENGTH - 2); t = substr(t, RSTART + RLENGTH)
            sub(/\(.*/, "", name)
            if (name ~ /[^A-Za-z0-9_:'"'"'-]/ || name !~ /[A-Za-z]/ || name ~ /^(requires|ensures|min|max|memset)$/) continue
            n = split(name, part, "::")
            if ((part[n] in crate) || (part[1], "proofs/" part[n]) in file) continue
            if (n > 1 && (part[1] in crate) && !((part[1], part[n]) in code)) bad("no " part[n] " in src/ of crate " part[1])
            else if (!(part[n] in known)) bad("no " part[n] " anywhere")
        }
    }
    # a list of edits: CRATE: LABEL, LABEL; LABEL. Prose may stand between them where `strict` is 0
    function labels(t, strict,    n, i, part, c, l) {
        gsub(/\([^)]*\)/, "", t); gsub(/`/, "", t)
        n = split(t, part, /[,;]/)
        for (i = 1; i <= n; i++) {
            l = part[i]; gsub(/^ +| +$/, "", l)
            if (l == "" || l == "-") continue
            if (match(l, /^[a-z0-9_]+: /)) {
                c = substr(l, 1, RLENGTH - 2); l = substr(l, RLENGTH + 1)
                if (!(c in crate)) { if (strict) bad("no crate " c); c = "" }
            }
            if (!strict) { if (!match(l, /^[a-z0-9]+_[a-z0-9_]+/)) continue; l = substr(l, 1, RLENGTH); if (!(l in where)) continue }
            if (c != "" && ((c, l) in edit)) { told[c, l] = 1; continue }
            if (c != "" || !(l in where)) { bad("no edit " (c == "" ? "" : c ": ") l); continue }
            if (split(where[l], at, " ") > 1) { bad("edit " l " stands in" where[l] ": name the crate"); continue }
            told[at[1], l] = 1
        }
    }
    # a paragraph or an item of a list, its lines joined
    function flush() {
        if (para ~ /^ *- refused by: / && whole) labels(substr(para, index(para, ":") + 2), 0)
        if (para ~ /^ *- edits?: / && whole) { sub(/^[^:]*: /, "", para); labels(para, 1) }
        else if (para != "") {
            # the crates of a section are those that its first lines name
            if (para ~ /^Crates? /) {
                t = para
                while (match(t, /`[a-z0-9_]+(::[a-z0-9_]+)*`/)) {
                    c = substr(t, RSTART + 1, RLENGTH - 2); sub(/::.*/, "", c); section[c] = c in crate
                    t = substr(t, RSTART + RLENGTH)
                }
            }
            look(para)
        }
        para = ""
    }

    FNR == 1 { flush(); doc = FILENAME; whole = doc == claims; columns = 0; fence = 0; delete section }
    /^```/ { flush(); fence = !fence; line = FNR; next }
    fence { next }
    /^#/ { flush(); line = FNR; columns = 0; if (/^## /) delete section; next }
    /^\|[ -]*-/ { next }
    /^\|/ {
        flush(); line = FNR
        n = split($0, cell, "|")
        if (!columns) { columns = n; for (i = 2; i < n; i++) { head[i] = cell[i]; gsub(/^ +| +$/, "", head[i]) } next }
        for (i = 2; i < n; i++) {
            if (whole && head[i] ~ /edit/) labels(cell[i], 1)
            else if (whole && head[i] == "refused by") { labels(cell[i], 0); look(cell[i]) }
            else look(cell[i])
        }
        next
    }
    { columns = 0 }
    /^ *$/ { flush(); line = FNR; next }
    /^ *([-*]|[0-9]+\.) / { flush(); line = FNR; para = $0; next }
    { if (para == "") line = FNR; sub(/^ +/, ""); para = para == "" ? $0 : para " " $0 }
    END {
        flush()
        for (i = 1; i <= nedits; i++) {
            split(edits[i], e, " ")
            if (!((e[1], e[2]) in told)) { printf "%s: names no edit %s: %s\n", claims, e[1], e[2]; wrong++ }
        }
        printf "claims: %d edits of the tree, %d places of the documents not as the tree is\n", nedits, wrong
        exit wrong > 0
    }' "$index" "$claims" README.md $(ls docs/*.md | grep -v -e CLAIMS -e '/0[12]-') tools/*.md tools/*/README.md
tools/specs.sh check
