/* Stack bytes of the exported functions. Each is called on a stack of its own that was filled with a pattern, through a caller that does nothing else; the
   lowest byte that changed is looked for after all tables of a depth. So the figure is the most over them, from the stack pointer of whoever calls, the
   arguments that go on the stack included.
   The tables are chains to a depth of each operator, its deeper operand in each place, over several leaves; and of every two, in turn, many of one over one of
   the other, and the other way round. They are evaluated and run on Bools, Ints, Floats and an Int beside a Float; each opcode is run by itself too.
   Prints `stack FUNCTION DEPTH BYTES` and, after a #, the chain that took the most. */
#include "board.h"
#include "vosemaqe.h"

enum { DEPTH = VOSEMAQE_MAX_DEPTH, NODES = 3 * DEPTH, STACK = 4096 + 2048 * DEPTH, SCRATCH = 8, REGISTERS = 2 * DEPTH + SCRATCH };
enum { PAINT = 0xA5A5A5A5u };

/* ---- tables */

static uint64_t table[4 * NODES], code[VOSEMAQE_WORDS_FOR(NODES)], slots[NODES], jumps[NODES], payloads[REGISTERS];
static uint8_t slot_kinds[NODES], kinds[REGISTERS];
static uint32_t nodes;

/* An operator and the place of its deeper operand. */
struct level { uint32_t kind, place; };

static uint32_t arity(uint32_t kind) { return kind < VOSEMAQE_NODE_BIT_AND ? 1 : kind < VOSEMAQE_NODE_TERNARY ? 2 : 3; }

static struct level level_of(uint32_t i) {
    struct level l = {VOSEMAQE_NODE_MINUS, 0};
    while (i--) if (++l.place == arity(l.kind)) { l.kind++; l.place = 0; }
    return l;
}
enum { LEVELS = 2 + 18 * 2 + 3 };

enum pattern { IN_TURN, OVER_ONE, ONCE_OVER };

/* The level at height i of a chain of n, counted from below. */
static struct level at(struct level a, struct level b, enum pattern p, uint32_t i, uint32_t n) {
    int first = p == IN_TURN ? i % 2 == 0 : p == OVER_ONE ? i > 0 : i + 1 == n;
    return first ? a : b;
}

struct leaf { uint64_t kind, payload; };

static void node(struct leaf l) {
    table[4 * nodes] = l.kind;
    table[4 * nodes++ + 1] = l.payload;
}

/* The leaf at the bottom, and the one that every other operand is. */
struct leaves { struct leaf deep, other; };

static void chain(struct level a, struct level b, enum pattern p, uint32_t depth, struct leaves leaf) {
    uint32_t n = depth - 1;
    nodes = 0;
    for (uint32_t i = n; i-- > 0;) /* what stands before the deeper operand, from the top down */
        for (uint32_t c = at(a, b, p, i, n).place; c > 0; c--) node(leaf.other);
    node(leaf.deep);
    for (uint32_t i = 0; i < n; i++) {
        struct level l = at(a, b, p, i, n);
        for (uint32_t c = l.place + 1; c < arity(l.kind); c++) node(leaf.other);
        node((struct leaf){l.kind, 0});
    }
    vosemaqe_complete(table, 4 * nodes);
}

/* ---- the calls: statics in, statics out, so that a caller's frame holds its arguments and little else */

static uint64_t cell[6], length, words, frame;
static uint8_t number;

static void call_compile_with(void) {
    number = vosemaqe_compile_with(table, length, 2, 0, 0, code, 4 * NODES, slot_kinds, NODES, slots, NODES, jumps, NODES, cell, cell + 1, cell + 2, cell + 3);
}
static void call_evaluate(void) { number = vosemaqe_evaluate(table, length, 2, 0, kinds, 2, payloads, 2, cell, cell + 1); }
static void call_run(void) {
    number = vosemaqe_run(code, words, 0, kinds, frame, payloads, frame, slot_kinds, NODES, slots, NODES, words, cell, cell + 1);
}
static void call_run_part(void) {
    number = vosemaqe_run_part(code, 4 * NODES, 0, words, kinds, frame, payloads, frame, slot_kinds, NODES, slots, NODES, words, cell, cell + 1);
}
static void call_check(void) { number = vosemaqe_check(table, length, 2, 0, 0); }
static void call_complete(void) { vosemaqe_complete(table, length); }
static void call_patch(void) { number = vosemaqe_patch(code, words, words / 2, 0); }
static void call_decode(void) { number = vosemaqe_decode(code[words / 2], cell, cell + 1, cell + 2, cell + 3, cell + 4, cell + 5); }
static void call_encode(void) { number = vosemaqe_encode(code[0] & 255, cell[1], cell[2], cell[3], cell[4], cell[5], cell); }
static void call_version(void) { number = (uint8_t)vosemaqe_version(); }

/* ---- painted stacks, one for each function that is told apart */

enum which { COMPILE_WITH, EVALUATE, RUN, OTHERS, STACKS };
static const char *const names[STACKS] = {"compile_with", "evaluate", "run", "others"};
static const uint32_t sizes[STACKS] = {STACK, STACK, 8192, 8192}; /* bytes */
static _Alignas(16) uint32_t room[(2 * STACK + 2 * 8192) / 4];
static uint32_t *lowest[STACKS]; /* the lowest word known to have changed */
static struct chain { struct level a, b; enum pattern p; } now, worst[STACKS]; /* what is called now; what went lowest */

static uint32_t *bottom(enum which w) {
    uint32_t *r = room;
    for (uint32_t i = 0; i < (uint32_t)w; i++) r += sizes[i] / 4;
    return r;
}
static uint32_t *top(enum which w) { return bottom(w) + sizes[w] / 4; }

static void paint(void) {
    for (uint32_t i = 0; i < sizeof room / sizeof *room; i++) room[i] = PAINT;
    for (uint32_t w = 0; w < STACKS; w++) lowest[w] = top((enum which)w);
}

/* A call on its stack. Where it went lower than those before it is seen within 1 KiB, which is more than a frame: it names the chain, it gives no figure. */
static void on(enum which w, void (*call)(void)) {
    on_stack(top(w), call);
    uint32_t *from = lowest[w] - bottom(w) > 256 ? lowest[w] - 256 : bottom(w);
    while (from < lowest[w] && *from == PAINT) from++;
    if (from == lowest[w]) return;
    lowest[w] = from;
    worst[w] = now;
}

static int well = 1;
static void hold(int fact, const char *what) {
    if (!fact) { put("stack: "); put(what); put("\n"); well = 0; }
}

static void put_level(struct level l) {
    put("kind ");
    put_number(l.kind);
    put(" place ");
    put_number(l.place);
}

static void report(uint32_t depth) {
    static const char *const patterns[] = {" in turn with ", " over one ", " once over "};
    for (uint32_t w = 0; w < STACKS; w++) {
        uint32_t *low = bottom((enum which)w);
        while (low < top((enum which)w) && *low == PAINT) low++;
        hold(low - bottom((enum which)w) > 64, "a stack was too small to measure");
        put("stack ");
        put(names[w]);
        put(" ");
        put_number(depth);
        put(" ");
        put_number((uint32_t)((char *)top((enum which)w) - (char *)low));
        put(" # ");
        if (worst[w].a.kind) {
            put_level(worst[w].a);
            put(patterns[worst[w].p]);
            put_level(worst[w].b);
        } else put("an opcode by itself");
        put("\n");
    }
}

/* ---- one table through all functions, the last ones on each of some values for its two locals */

struct pair { uint8_t kind; uint64_t payload; };
static const struct pair values[][2] = {
    {{VOSEMAQE_BOOL, 1}, {VOSEMAQE_BOOL, 1}}, {{VOSEMAQE_BOOL, 0}, {VOSEMAQE_BOOL, 0}}, {{VOSEMAQE_FLOAT, 0x3FB999999999999Au}, {VOSEMAQE_FLOAT, 1}},
    {{VOSEMAQE_INT, 3}, {VOSEMAQE_INT, 1ull << 54}}, {{VOSEMAQE_INT, 1ull << 54}, {VOSEMAQE_FLOAT, 0x4350000000000000u}},
    {{VOSEMAQE_FLOAT, 0xC350000000000000u}, {VOSEMAQE_INT, 3}}, {{VOSEMAQE_FLOAT, 0x7FF8000000000000u}, {VOSEMAQE_INT, 1ull << 54}}};
enum { VALUES = sizeof values / sizeof *values, FEW = 3 };

static void fill(uint32_t v) {
    for (uint32_t i = 0; i < REGISTERS; i++) {
        kinds[i] = i < 2 ? values[v][i].kind : VOSEMAQE_NIL;
        payloads[i] = i < 2 ? values[v][i].payload : 0;
    }
}

static void one(struct level a, struct level b, enum pattern p, uint32_t depth, struct leaves leaf, uint32_t many) {
    now = (struct chain){a, b, p};
    chain(a, b, p, depth, leaf);
    length = 4 * nodes;
    on(COMPILE_WITH, call_compile_with);
    hold(number == VOSEMAQE_DONE, "a chain is refused");
    words = cell[0];
    frame = cell[3] < 2 ? 2 : cell[3];
    hold(frame <= REGISTERS, "a frame is larger than two registers a level");
    for (uint32_t v = 0; v < many; v++) {
        fill(v);
        on(EVALUATE, call_evaluate);
        on(RUN, call_run);
    }
    if (many == FEW) return; /* what follows takes the same for most chains */
    on(RUN, call_run_part);
    on(OTHERS, call_check);
    on(OTHERS, call_complete);
    on(OTHERS, call_decode);
    on(OTHERS, call_encode);
    on(OTHERS, call_patch);
    on(OTHERS, call_version);
}

/* A run of each opcode's word by itself, also of those that no compile makes. */
static void every_opcode(void) {
    now.a.kind = 0;
    words = 1;
    frame = SCRATCH;
    for (uint64_t op = 0; op < 77; op++)
        for (uint32_t operands = 0; operands <= 5; operands++) {
            uint64_t o[5];
            for (uint32_t k = 0; k < 5; k++) o[k] = k < operands;
            if (vosemaqe_encode(op, o[0], o[1], o[2], o[3], o[4], code)) continue;
            for (uint32_t v = 0; v < VALUES; v++) {
                fill(v);
                on(RUN, call_run);
            }
        }
}

static void measure(uint32_t depth) {
    static const struct leaf r0 = {VOSEMAQE_NODE_REF, 0}, r1 = {VOSEMAQE_NODE_REF, 1}, small = {VOSEMAQE_NODE_INT, 5}, large = {VOSEMAQE_NODE_INT, 1ull << 40},
        tenth = {VOSEMAQE_NODE_FLOAT, 0x3FB999999999999Au}, yes = {VOSEMAQE_NODE_TRUE, 0};
    const struct leaves leaves[] = {{r0, r0}, {r0, r1}, {r1, r0}, {r0, small}, {small, r0}, {large, r0}, {r0, large}, {tenth, r0}, {r0, tenth}, {yes, yes}};
    paint();
    for (uint32_t i = 0; i < LEVELS; i++) {
        struct level a = level_of(i);
        for (uint32_t k = 0; k < sizeof leaves / sizeof *leaves; k++) one(a, a, IN_TURN, depth, leaves[k], VALUES);
        if (depth < 3) continue;
        for (uint32_t j = 0; j < LEVELS; j++)
            if (i != j) for (uint32_t p = IN_TURN; p <= ONCE_OVER; p++) one(a, level_of(j), (enum pattern)p, depth, leaves[0], FEW);
    }
    every_opcode();
    report(depth);
}

int test(void) {
    static const uint32_t depths[] = {1, 2, 3, 4, 8, 16, 64};
    for (uint32_t i = 0; i < sizeof depths / sizeof *depths; i++)
        if (depths[i] < DEPTH) measure(depths[i]);
    measure(DEPTH);
    return !well;
}
