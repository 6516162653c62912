/* How often the check reads each word of a table. `reads` calls it on tables of several shapes and says where they stand; it is run under valgrind's lackey,
 * whose trace has every load. `reads judge WHERE TRACE` counts the loads of each word between a call's begin and its end, and fails where there are more than
 * one pass takes. A node's four words are read in its turn; its first and depth once more by its parent, unless they are still at hand, as the last child's
 * are where there is another. So no word of an accepted table is read more than twice. A fault is looked into once more, with all the rules: the words of that
 * node and of its children. */
#include "vosemaqe.h"
#include <inttypes.h>
#include <stdio.h>
#include <stdlib.h>
#include <string.h>

enum { NODES = 300, TABLES = 64 };
static uint64_t T[4 * NODES];
static size_t N;
static volatile uint64_t begin_mark, end_mark;

static void node(uint64_t kind) { uint64_t *n = T + 4 * N++; n[0] = kind; n[1] = 0; }

/* the words that are read of other nodes: two of an only child, of the first of two, of the first two of three */
static size_t of_children(void) {
    size_t words = 0;
    for (size_t i = 0; i < N; i++) words += T[4 * i] == VOSEMAQE_NODE_TERNARY ? 4 : T[4 * i] > VOSEMAQE_NODE_REF ? 2 : 0;
    return words;
}
/* one call, and a line that says so: nodes, the words to be read, the number that is wanted */
static void call(uint8_t want) {
    begin_mark = N;
    uint8_t got = vosemaqe_check(T, 4 * N, 0, 0, 0);
    end_mark = N;
    if (got != want) { fprintf(stderr, "reads: %d, not %d\n", got, want); exit(1); }
    printf("%zu %zu %d\n", N, 4 * N + of_children() + 1, want); /* and the last node's first, at the end */
}
/* the table as it is, then with a wrong depth at its last node, then in its middle */
static void calls(void) {
    vosemaqe_complete(T, 4 * N);
    call(0);
    T[4 * N - 1] += 1; call(VOSEMAQE_BAD_NODE); T[4 * N - 1] -= 1;
    size_t middle = 4 * (N / 2) + 3;
    T[middle] += 1; call(VOSEMAQE_BAD_NODE); T[middle] -= 1;
    N = 0;
}
static uint64_t drawn = 1;
static uint64_t draw(uint64_t below) { drawn = drawn * 6364136223846793005u + 1442695040888963407u; return (drawn >> 33) % below; }

/* a tree of any kinds: a run of subtrees that are still without a parent, and at the end one node over all that are left */
static void any(size_t nodes) {
    size_t open = 0;
    while (N + open < nodes) {
        uint64_t children = draw(4);
        if (children > open || open > 8) children = open > 8 ? 2 : 0;
        static const uint64_t from[] = {0, 6, 8, 26}, kinds[] = {4, 2, 18, 1};
        node(from[children] + draw(kinds[children]));
        open += 1 - children;
    }
    while (open > 1) { node(VOSEMAQE_NODE_ADD); open--; }
}

static int play(void) {
    printf("%" PRIxPTR " %" PRIxPTR " %" PRIxPTR "\n", (uintptr_t)T, (uintptr_t)&begin_mark, (uintptr_t)&end_mark);
    for (uint64_t i = 0; i < VOSEMAQE_MAX_DEPTH; i++) node(i ? VOSEMAQE_NODE_MINUS : VOSEMAQE_NODE_NIL);
    calls();
    for (int i = 0; i < 100; i++) { node(VOSEMAQE_NODE_NIL); if (i % 2) node(VOSEMAQE_NODE_SUB); if (i % 2 && i > 1 && i < 60) node(VOSEMAQE_NODE_ADD); }
    for (int i = 0; i < 20; i++) node(VOSEMAQE_NODE_OR);
    calls();
    for (int i = 0; i < 21; i++) node(VOSEMAQE_NODE_NIL);
    for (int i = 0; i < 10; i++) node(VOSEMAQE_NODE_TERNARY);
    calls();
    for (int i = 0; i < 8; i++) { any(60 + 20 * (size_t)i); calls(); }
    return 0;
}

static int judge(const char *where, const char *trace) {
    FILE *w = fopen(where, "r"), *t = fopen(trace, "r");
    uintptr_t table, begin, end;
    if (!w || !t || fscanf(w, "%" SCNxPTR " %" SCNxPTR " %" SCNxPTR, &table, &begin, &end) != 3) { fprintf(stderr, "reads: nothing to judge\n"); return 1; }
    char line[200];
    static unsigned reads[4 * NODES];
    int within = 0, checked = 0;
    unsigned long all = 0, nodes = 0;
    while (fgets(line, sizeof line, t)) {
        uintptr_t at;
        unsigned bytes;
        char what;
        if (sscanf(line, " %c %" SCNxPTR ",%u", &what, &at, &bytes) != 3 || what == 'I') continue;
        if (what == 'S' && at == begin) { within = 1; memset(reads, 0, sizeof reads); }
        if (within && what != 'S' && at + bytes > table && at < table + sizeof T)
            for (uintptr_t b = at < table ? table : at; b < at + bytes && b < table + sizeof T; b = (b / 8 + 1) * 8) reads[(b - table) / 8]++;
        if (what != 'S' || at != end || !within) continue;
        within = 0;
        size_t n, most;
        int number;
        if (fscanf(w, "%zu %zu %d", &n, &most, &number) != 3) { fprintf(stderr, "reads: more calls than lines\n"); return 1; }
        unsigned total = 0, once = number ? 2 : 1, often = number ? 3 : 2;
        for (size_t i = 0; i < 4 * n; i++) {
            total += reads[i];
            if (reads[i] > (i % 4 < 2 ? once : often) || (!number && !reads[i])) {
                fprintf(stderr, "reads: word %zu of node %zu is read %u times in a table of %zu nodes, number %d\n", i % 4, i / 4, reads[i], n, number);
                return 1;
            }
        }
        /* at a fault once more 4, and 2 for each of 3 children */
        if (total > most + (number ? 10 : 0)) { fprintf(stderr, "reads: %u words read in a table of %zu nodes, number %d\n", total, n, number); return 1; }
        if (!number) { all += total; nodes += n; }
        checked++;
    }
    size_t more;
    if (checked == 0 || fscanf(w, "%zu", &more) == 1) { fprintf(stderr, "reads: %d calls traced, and more were made\n", checked); return 1; }
    printf("reads: %d checks; of an accepted table no word is read more than twice, %.2f words a node\n", checked, (double)all / (double)nodes);
    return 0;
}

int main(int argc, char **argv) {
    if (argc == 4 && !strcmp(argv[1], "judge")) return judge(argv[2], argv[3]);
    return play();
}
