#!/usr/bin/env bash
# Runs ./vosemaqe as people do: files, standard input, a link to it, and everything that it cannot read or write; what it says and its exit status.
# The program has to be built, as `rt ci` leaves it, or ./vosemaqe: this proves nothing, and takes seconds.
set -euo pipefail
cd "$(dirname "$0")/.."
root=$PWD
[ -x crates/cli/out/cli ] || {
    echo "tests/tool.sh: crates/cli/out/cli is not built (rt ci, or ./vosemaqe)" >&2
    exit 1
}
room=$(mktemp -d)
trap 'rm -rf "$room"' EXIT
tests=0 failed=0

# check WHAT STATUS TEXT COMMAND..: the command ends with the status, and the text, if any, is in what it writes to either output.
check() {
    local what=$1 status=$2 text=$3 got=0
    shift 3
    tests=$((tests + 1))
    timeout 60 "$@" >"$room/out" 2>"$room/err" </dev/null || got=$?
    if [ "$got" -ne "$status" ]; then
        echo "tests/tool.sh: $what: status $got, not $status" >&2
    elif [ -n "$text" ] && ! grep -qF -- "$text" "$room/out" "$room/err"; then
        echo "tests/tool.sh: $what: nothing says: $text" >&2
    else
        return 0
    fi
    sed 's/^/    /' "$room/out" "$room/err" | tail -n 5 >&2
    failed=$((failed + 1))
}

tool=./vosemaqe

# ---- the samples
check "README's example" 0 "words: true in r3 after 3 steps" $tool samples/feed_back.txt
# README shows the first expression of that file, and what the tool writes of it
shown() { # FROM TO: the indented lines of README between two lines
    sed -n "/^$1/,/^$2/s/^    //p" README.md
}
shown "The first expression of" "The tool writes" | sed 's/  *#.*//' >"$room/text"
check "README's text is the sample's" 0 "" sh -c "grep -v '^#' samples/feed_back.txt | sed 's/  *#.*//; /^---/,\$d' | cmp - '$room/text'"
shown "The tool writes" "Each listed word" >"$room/readme"
check "README's output is the tool's" 0 "" sh -c "$tool samples/feed_back.txt | sed '/^\$/,\$d' | cmp - '$room/readme'"
check "the chopper" 0 "total: 5 with a value, 0 refused, 0 stopped by a fault, 0 unreadable" $tool samples/chopper.txt
check "what stops" 1 "total: 1 with a value, 2 refused, 2 stopped by a fault, 0 unreadable" $tool samples/stops.txt
check "one that stops" 1 "tree:  fault 20: wrong kind of value" $tool crates/cli/data/faults.txt
check "several files" 0 "== Duty cycle of the chopper, written to a local" $tool samples/feed_back.txt samples/chopper.txt
printf 'int 2\nint 3\nadd\n' >"$room/sum"
check "a file" 0 "tree:  int 5" $tool "$room/sum"
check "standard input" 0 "tree:  int 5" sh -c "$tool <'$room/sum'"
check "standard input by its name" 0 "tree:  int 5" sh -c "$tool - <'$room/sum'"
printf 'int 2\r\nint 3\r\nadd\r\ntitle Line ends of another system\r\n' >"$room/returns"
check "carriage returns" 0 "== Line ends of another system" $tool "$room/returns"
check "no return is left in a title" 0 "" sh -c "! $tool '$room/returns' | grep -q \$(printf '\\r')"
check "a value on the first line" 0 "tree:  int 42" sh -c "printf 'local int 40\nref 0\nint 2\nadd\n' | $tool"
check "a first and depth on the first line" 1 "-:1: node 0: first 7 and depth 1 are given, but should be 0 and 1" sh -c "printf 'int 5 7 1\n' | $tool"
printf 'int 2' >"$room/short"
check "no newline at the end" 0 "tree:  int 2" $tool "$room/short"
ln -s "$root/vosemaqe" "$room/link"
check "through a link" 0 "tree:  int 5" "$room/link" "$room/sum"
(cd "$room" && ln -s link link2)
check "through a link to a link, elsewhere" 0 "tree:  int 5" sh -c "cd '$room' && ./link2 sum"

# ---- what is refused, and what stops
check "a refusal" 1 "refused with 4" sh -c "printf 'ref 0\n' | $tool"
check "a fault" 1 "fault 22: Mod by zero" sh -c "printf 'int 1\nint 0\nmod\n' | $tool"
check "a refusal names its file and line" 1 "$room/ref:2: node 1: register 7 is not below the base, 1" \
    sh -c "printf 'ref 0\nref 7\nadd\nlocal nil\n' >'$room/ref'; $tool '$room/ref'"

check "the node at fault stands after literals that are right" 1 "-:6: node 5: register 3 is not below the base, 1" \
    sh -c "printf 'ref 0\nfloat -0.5\nadd\nint -7\nmul\nref 3\nadd\nlocal int 1\n' | $tool"

# ---- the layout
check "a parameter and a local" 0 "nodes 3, parameters 1, locals 1, no destination" \
    sh -c "printf 'params 1\nref 0\nref 1\nadd\nlocal int 1\nlocal int 2\n' | $tool"
check "fewer values than parameters" 1 "nodes 1, parameters 3, locals 0, no destination" sh -c "printf 'params 3\nref 0\nlocal int 1\nlocal int 2\n' | $tool"
check "fewer values than parameters, not run" 1 "words: not run: 2 of 3 registers have a value" \
    sh -c "printf 'params 3\nref 0\nlocal int 1\nlocal int 2\n' | $tool"
check "a destination that is not there" 1 "-:2: destination r5 is not below the base, 1" sh -c "printf 'ref 0\ndest 5\nlocal int 1\n' | $tool"
check "a sum that 64 bits do not hold" 1 "refused with 5" sh -c "printf 'params 18446744073709551615\nlocals 1\nnil\n' | $tool"
check "a destination among the parameters" 0 "words: int 3 in r0 after 1 step" \
    sh -c "printf 'params 2\nref 0\nref 1\nadd\ndest 0\nlocal int 1\nlocal int 2\n' | $tool"

# ---- limits
lines() { # TEXT COUNT: the text so many times
    awk -v text="$1" -v count="$2" 'BEGIN { while (count-- > 0) print text }'
}
depth=$(sed -n 's/^#define VOSEMAQE_MAX_DEPTH //p' include/vosemaqe.h)
{ echo "ref 0" && lines not $((depth - 1)) && echo "local true"; } >"$room/deep"
check "the greatest depth" 0 "tree:  " $tool "$room/deep"
{ echo "ref 0" && lines not "$depth" && echo "local true"; } >"$room/deeper"
check "one more" 1 "refused with 3: depth over $depth" $tool "$room/deeper"
check "one more, and where" 1 "$room/deeper:$((depth + 1)): node $depth: its depth is $((depth + 1))" $tool "$room/deeper"
awk 'BEGIN { for (i = 1; i <= 2048; i++) { print "true"; for (j = i; j % 2 == 0; j /= 2) print "or" } print "not" }' >"$room/wide"
check "as many nodes as are shown" 0 "words: false in r1 after 4 steps" $tool "$room/wide"
echo not >>"$room/wide"
check "more nodes than are shown" 2 "$room/wide:4097: 'not': more than 4096 nodes: this tool shows no larger expression (the library takes up to 65536)" \
    $tool "$room/wide"
# a balanced tree of 511 Lt over Refs: 2044 words, with positions of one to four digits
balanced() { # LEVELS
    if [ "$1" -eq 0 ]; then echo "ref 0"; else balanced $(($1 - 1)) && balanced $(($1 - 1)) && echo lt; fi
}
{ balanced 9 && echo "local int 1"; } >"$room/many"
check "positions in four places" 0 2044 sh -c "$tool '$room/many' | grep -cE '^( {3}[0-9]| {2}[0-9]{2}| [0-9]{3}|[0-9]{4})  0x'"
digits=$(head -c 1100 /dev/zero | tr '\0' 0)
check "1100 digits after the point" 0 "tree:  float 0x0000000000000000 (0)" sh -c "printf 'float 0.%s\n' $digits | $tool"
check "1101 digits after the point" 2 "more than 1100 digits after the point" sh -c "printf 'float 0.%s0\n' $digits | $tool"

# ---- what cannot be read
check "a text that cannot be read" 2 "-:1: 'lte': no kind of node" sh -c "printf 'lte\n' | $tool"
check "a decimal that no float is equal to" 2 "0x3fe6666666666666 (0.6999999999999999555910790149937383830547332763671875) or float 0x3fe6666666666667" \
    sh -c "printf 'float 0.7\n' | $tool"
check "unreadable beside a refusal" 2 "1 refused, 0 stopped by a fault, 1 unreadable" sh -c "printf 'lte\n---\nref 0\n' | $tool"
check "a missing file" 2 "$room/none: No such file or directory" $tool "$room/none"
check "a missing file among others" 2 "total: 1 with a value, 0 refused, 0 stopped by a fault, 1 unreadable" $tool "$room/none" "$room/sum"
check "a directory" 2 "$room: Is a directory" $tool "$room"
: >"$room/empty"
check "an empty file" 2 "$room/empty:1: no expression in this text" $tool "$room/empty"
printf '# nothing\n\n---\n' >"$room/comment"
check "nothing but comments" 2 "$room/comment:1: no expression in this text" $tool "$room/comment"
check "no text at all" 2 "-:1: no expression in this text" $tool
printf '\357\273\277int 2\n' >"$room/bom"
check "a byte order mark" 2 "$room/bom:1: the text begins with a byte order mark (BOM)" $tool "$room/bom"
printf '\377\376i\000' >"$room/bom16" && check "one of UTF-16" 2 "byte order mark (BOM)" $tool "$room/bom16"
printf '\376\377\000i' >"$room/bom61" && check "one of UTF-16, the other way round" 2 "byte order mark (BOM)" $tool "$room/bom61"
head -c 300000 /dev/zero | tr '\0' '#' >"$room/long"
check "a text that is too long" 2 "$room/long:1: the text has more than 262144 bytes" $tool "$room/long"
head -c 5000 /dev/urandom >"$room/noise"
check "noise" 2 "unreadable" $tool "$room/noise"
check "an argument that is too long" 2 "0 stopped by a fault, 1 unreadable" $tool "$(head -c 5000 /dev/zero | tr '\0' a)"
check "an option that there is not" 2 "no option --frob" $tool --frob

# ---- what cannot be written
if [ -w /dev/full ]; then
    check "a full disk" 2 "not all could be written" sh -c "$tool '$room/sum' >/dev/full"
fi
check "a closed output" 2 "not all could be written" sh -c "$tool '$room/sum' >&-"

# ---- help
check "--help" 0 "Exit status: 0 every expression has a value" $tool --help
check "-h" 0 "usage: ./vosemaqe" $tool -h
check "--version" 0 "vosemaqe $(sed -n "s/^## \([0-9.]*\).*/\1/p" CHANGELOG.md | head -n 1)" $tool --version

# ---- without the kit: a folder that has the wrapper and sources newer than any program
mkdir -p "$room/bare/crates/cli/src"
cp vosemaqe crates.txt "$room/bare"
check "without the kit" 2 "rt is the command of the Rattle kit" env PATH=/usr/bin:/bin "$room/bare/vosemaqe" "$room/sum"

# ---- the gate compares a listing of every word that the machine runs (a * in the header), but nop, which no expression makes
for name in $(sed -n 's/^ *VOSEMAQE_OP_\([A-Z0-9_]*\) = .*\* \*\/$/\1/p' include/vosemaqe.h | tr '[:upper:]' '[:lower:]'); do
    [ "$name" = nop ] || check "$name in crates/cli/stdout" 0 "" grep -qE "^ *[0-9]+  0x[0-9a-f]{16}  $name( |\$)" crates/cli/stdout
done

# ---- what the tool writes of a float, it reads again as the same float
floats=$(grep -oE 'float 0x[0-9a-f]{16} \(-?[0-9.]+\)' crates/cli/stdout | sort -u)
while read -r _ pattern decimal; do
    decimal=${decimal#(} decimal=${decimal%)}
    check "$decimal read again" 0 "tree:  float $pattern ($decimal)" sh -c "printf 'float %s\n' '$decimal' | $tool"
done <<<"$floats"

echo "tests/tool.sh: $tests runs, $failed failed"
[ "$failed" -eq 0 ]
