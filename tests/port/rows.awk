# Rows of docs/STACK.md's last table, from what stack.c prints: awk -v target=NAME -f rows.awk OUT
# The reserve at depth d is bytes + bytes-a-level * d. A level: what one takes between the two greatest depths, rounded up to 8. The rest: what the worst depth
# takes beyond that, rounded up to 64 with 256 to spare, since a painted stack shows what was written and not the whole of the last frames. Where the two
# greatest depths take the same, the most of all, rounded up likewise.
function up(n, to) { n += to - 1; return n - n % to }
function grouped(n) { return n < 1000 ? n "" : int(n / 1000) "," substr(1000 + n % 1000, 2) }
function told(depth) { return depth == 1 || depth == 16 || depth == 64 || depth == limit }
$1 == "stack" {
    if (!count[$2]++) name[++names] = $2
    depth[count[$2]] = limit = $3
    bytes[$2, count[$2]] = $4
}
END {
    if (heads) {
        line = "| target | function |"; rule = "|---|---|"
        for (k = 1; k <= count[name[1]]; k++) if (told(depth[k])) { line = line " depth " depth[k] " |"; rule = rule "---|" }
        print line " reserve at depth d |"
        print rule "---|"
    }
    for (i = 1; i <= names; i++) {
        f = name[i]; n = count[f]; level = rest = 0
        if (bytes[f, n] != bytes[f, n - 1]) level = up((bytes[f, n] - bytes[f, n - 1]) / (depth[n] - depth[n - 1]), 8)
        for (k = 1; k <= n; k++) if (bytes[f, k] - level * depth[k] > rest) rest = bytes[f, k] - level * depth[k]
        line = "| " target " | `" f "` |"
        for (k = 1; k <= n; k++) if (told(depth[k])) line = line " " grouped(bytes[f, k]) " |"
        print line " " grouped(up(rest + 256, 64)) (level ? " + " grouped(level) " d" : "") " |"
    }
}
