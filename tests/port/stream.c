/* One deterministic stream of calls of every exported function: JOBS jobs, each a table that is completed, checked, evaluated, compiled with room to spare,
   exactly full and one short, and run; then words that are encoded, decoded, patched and run. Every fifth table is damaged. What is lent stands between guard
   words and holds no zero before a call; every answer, every result cell and every lent byte, the guards too, go into a hash, which is printed for each tenth
   of the stream. Two builds of the library agree where they print the same.

   The order in which C evaluates arguments is the compiler's: no expression draws twice. */
#include "board.h"
#include "vosemaqe.h"

#ifndef JOBS
#define JOBS 1000
#endif

/* ---- what is drawn, and what is hashed */

static uint64_t state, hash;
static uint32_t met[32]; /* how often each number was answered */

static uint64_t draw(void) {
    state ^= state << 13;
    state ^= state >> 7;
    state ^= state << 17;
    return state;
}
static uint32_t below(uint32_t n) { return (uint32_t)((draw() >> 32) * n >> 32); }
static int one_in(uint32_t n) { return below(n) == 0; }
/* a number of any width */
static uint64_t any(void) {
    uint64_t v = draw();
    return v >> below(64);
}

static void mix(uint64_t v) {
    hash = (hash ^ v) * 0x9E3779B97F4A7C15u;
    hash ^= hash >> 29;
}
static uint8_t answer(uint8_t number) {
    met[number & 31]++;
    mix(number);
    return number;
}

/* ---- lent memory */

enum { GUARD = 2, NODES = 2 * VOSEMAQE_MAX_DEPTH + 260, WORDS = VOSEMAQE_WORDS_FOR(NODES), REGISTERS = 2 * VOSEMAQE_MAX_DEPTH + 16 };
static uint64_t table[4 * NODES];
static uint64_t code_room[WORDS + 2 * GUARD], store_room[WORDS + 16 + 2 * GUARD], slot_room[NODES + 2 * GUARD], jump_room[NODES + 2 * GUARD];
static uint64_t payload_room[REGISTERS + 2 * GUARD];
static uint8_t slot_kind_room[NODES + 2 * GUARD], kind_room[REGISTERS + 2 * GUARD];

static uint64_t *lend(uint64_t *room, uint32_t n) {
    for (uint32_t i = 0; i < n + 2 * GUARD; i++) room[i] = 0xA5A5A5A5A5A5A5A5u;
    return room + GUARD;
}
static uint8_t *lend_bytes(uint8_t *room, uint32_t n) {
    for (uint32_t i = 0; i < n + 2 * GUARD; i++) room[i] = 0x77;
    return room + GUARD;
}
static void seal(const uint64_t *room, uint32_t n) {
    for (uint32_t i = 0; i < n + 2 * GUARD; i++) mix(room[i]);
}
static void seal_bytes(const uint8_t *room, uint32_t n) {
    for (uint32_t i = 0; i < n + 2 * GUARD; i++) mix(room[i]);
}

/* ---- payloads at the edges */

static uint64_t whole(void) {
    static const uint64_t edges[] = {0, 1, 5, 0xFF0, 32767, 32768, 1ull << 37, (1ull << 37) - 1, 1ull << 53, (1ull << 53) + 1, (1ull << 61) - 1, 1ull << 61,
        ~0ull >> 1, 1ull << 63, 63, 64, 0xFF};
    uint64_t v = edges[below(sizeof edges / sizeof *edges)];
    if (one_in(4)) v += below(3);
    if (one_in(3)) v = 0 - v;
    return v;
}
static uint64_t real(void) {
    static const uint64_t edges[] = {0, 1ull << 63, 0x3FF0000000000000u, 0x3FB999999999999Au, 0x7FF0000000000000u, 0xFFF0000000000000u, 0x7FF8000000000000u,
        0x7FF8000000000123u, 1, 0x000FFFFFFFFFFFFFu, 0x0010000000000000u, 0x7FEFFFFFFFFFFFFFu, 0x4340000000000000u, 0x4089640000000000u, 0x4087700000000000u};
    if (one_in(3)) return draw();
    return edges[below(sizeof edges / sizeof *edges)];
}

/* ---- tables: kinds and payloads; vosemaqe_complete writes the rest */

static uint32_t nodes;

static void node(uint64_t kind, uint64_t payload) {
    uint64_t *n = table + 4 * nodes++;
    n[0] = kind;
    n[1] = payload;
    n[2] = n[3] = 0xEEEEEEEEEEEEEEEEu;
}

enum want { NUMBER, TRUTH, ANY };

static void leaf(enum want want) {
    uint32_t q = below(8);
    if (want == ANY && q == 7) { node(VOSEMAQE_NODE_NIL, 0); return; }
    if (want == ANY) want = below(2) ? NUMBER : TRUTH;
    if (want == NUMBER) {
        if (q < 3) node(VOSEMAQE_NODE_INT, whole());
        else if (q < 5) {
            uint64_t v = real();
            /* a literal that is not finite is refused: few of them */
            if (!one_in(16)) v &= ~(1ull << 62);
            node(VOSEMAQE_NODE_FLOAT, v);
        } else node(VOSEMAQE_NODE_REF, below(3));
    } else if (q < 4) node(q < 2 ? VOSEMAQE_NODE_TRUE : VOSEMAQE_NODE_FALSE, 0);
    else node(VOSEMAQE_NODE_REF, 3 + below(3));
}

static void grow(uint32_t n, enum want want) {
    if (n <= 1) { leaf(want); return; }
    if (n == 2) {
        leaf(want);
        node(want == NUMBER ? VOSEMAQE_NODE_MINUS : want == TRUTH ? VOSEMAQE_NODE_NOT : VOSEMAQE_NODE_MINUS + below(2), 0);
        return;
    }
    if (n >= 4 && one_in(5)) {
        uint32_t test = 1 + below(n - 3 > 9 ? 9 : n - 3), then = (n - 1 - test) / 2;
        grow(test, TRUTH);
        grow(then, want);
        grow(n - 1 - test - then, want);
        node(VOSEMAQE_NODE_TERNARY, 0);
        return;
    }
    uint32_t left = one_in(3) ? 1 : (n - 1) / 2;
    if (below(2)) left = n - 1 - left;
    enum want operands = want;
    if (want == TRUTH && below(2)) operands = NUMBER;
    grow(left, operands);
    grow(n - 1 - left, operands);
    if (want == NUMBER) node(VOSEMAQE_NODE_BIT_AND + below(10), 0);
    else if (want == ANY) node(VOSEMAQE_NODE_BIT_AND + below(18), 0);
    else if (operands == NUMBER) node(VOSEMAQE_NODE_EQ + below(6), 0);
    else node(VOSEMAQE_NODE_AND + below(2), 0);
}

/* A chain as deep as the limit, one less or one more, its deeper operand to the left or to the right. */
static void chain(void) {
    uint32_t depth = VOSEMAQE_MAX_DEPTH - 1 + below(3), right = below(2), first = below(18), second = below(18);
    enum want want = below(2) ? NUMBER : TRUTH;
    if (right) for (uint32_t i = 1; i < depth; i++) leaf(want);
    leaf(want);
    for (uint32_t i = 1; i < depth; i++) {
        if (!right) leaf(want);
        node(VOSEMAQE_NODE_BIT_AND + (below(2) ? first : second), 0);
    }
}

static void make_table(void) {
    nodes = 0;
    if (one_in(16)) chain();
    else {
        uint32_t n = 1 + below(one_in(10) ? 250 : 24);
        enum want want = (enum want)below(3);
        grow(n, want);
    }
    if (one_in(16)) {
        uint32_t at = below(nodes);
        table[4 * at] = below(32); /* a kind that leaves children missing, or is none */
    }
    vosemaqe_complete(table, 4 * nodes);
    for (uint32_t i = 0; i < 4 * nodes; i++) mix(table[i]);
    if (one_in(5)) {
        uint32_t at = below(4 * nodes);
        table[at] = below(2) ? below(30) : draw();
    }
}

/* ---- a table's calls */

static uint64_t params, locals, dest, length;
static struct { uint64_t words, slots, reg, frame; } made;

struct room { uint32_t words, kinds, payloads, jumps; };

static uint8_t compile(struct room room, int lent_list) {
    uint64_t *code = lend(code_room, room.words), *slots = lend(slot_room, room.payloads), *jumps = lend(jump_room, room.jumps);
    uint8_t *kinds = lend_bytes(slot_kind_room, room.kinds), number;
    made.words = made.slots = made.reg = made.frame = 0x5A5A5A5A5A5A5A5Au;
    if (lent_list)
        number = vosemaqe_compile_with(table, length, params, locals, dest, code, room.words, kinds, room.kinds, slots, room.payloads, jumps, room.jumps,
            &made.words, &made.slots, &made.reg, &made.frame);
    else
        number = vosemaqe_compile(table, length, params, locals, dest, room.words ? code : 0, room.words, kinds, room.kinds, slots, room.payloads,
            &made.words, &made.slots, &made.reg, &made.frame);
    answer(number);
    mix(made.words);
    mix(made.slots);
    mix(made.reg);
    mix(made.frame);
    seal(code_room, room.words);
    seal(slot_room, room.payloads);
    seal(jump_room, room.jumps);
    seal_bytes(slot_kind_room, room.kinds);
    return number;
}

/* Registers: an Int, a Float, a number, true, false and any value; the temporaries hold any well-formed values. One time in 32 a pair is ill-formed. */
static void fill(uint8_t *kinds, uint64_t *payloads, uint32_t n) {
    static const uint8_t first[] = {VOSEMAQE_INT, VOSEMAQE_FLOAT, VOSEMAQE_INT, VOSEMAQE_BOOL, VOSEMAQE_BOOL};
    for (uint32_t i = 0; i < n; i++) {
        uint8_t kind = i < 5 ? first[i] : (uint8_t)below(4);
        if (i == 2 && below(2)) kind = VOSEMAQE_FLOAT;
        kinds[i] = kind;
        payloads[i] = kind == VOSEMAQE_NIL ? 0 : kind == VOSEMAQE_BOOL ? (i == 3 ? 1 : i == 4 ? 0 : below(2)) : kind == VOSEMAQE_INT ? whole() : real();
    }
    if (n && one_in(32)) {
        uint32_t at = below(n);
        kinds[at] = (uint8_t)(4 + below(5));
    }
}

static void evaluate(void) {
    uint32_t n = 6 - (uint32_t)one_in(24);
    uint64_t *payloads = lend(payload_room, n), kind = 7, payload = 7;
    uint8_t *kinds = lend_bytes(kind_room, n);
    fill(kinds, payloads, n);
    answer(vosemaqe_evaluate(table, length, params, locals, kinds, n, payloads, n, &kind, &payload));
    mix(kind);
    mix(payload);
    seal(payload_room, n);
    seal_bytes(kind_room, n);
}

/* The words that stand in the code's room, run whole or as a part of a store. */
static void run(uint32_t words, uint32_t slots, uint32_t frame, uint64_t budget) {
    uint32_t part = below(2), registers = frame - (uint32_t)(frame && one_in(16));
    uint64_t *payloads = lend(payload_room, registers), steps = 7, position = 7;
    uint8_t *kinds = lend_bytes(kind_room, registers);
    fill(kinds, payloads, registers);
    if (part) {
        uint32_t before = below(8), entry = before + (uint32_t)one_in(24), end = before + words + 9 * (uint32_t)one_in(24), all = before + words + 4;
        uint64_t *store = lend(store_room, all);
        for (uint32_t i = 0; i < words; i++) store[before + i] = code_room[GUARD + i];
        answer(vosemaqe_run_part(store, all, entry, end, kinds, registers, payloads, registers, slot_kind_room + GUARD, slots, slot_room + GUARD, slots,
            budget, &steps, &position));
        seal(store_room, all);
    } else {
        uint32_t start = one_in(24) ? below(words + 2) : 0;
        answer(vosemaqe_run(code_room + GUARD, words, start, kinds, registers, payloads, registers, slot_kind_room + GUARD, slots, slot_room + GUARD, slots,
            budget, &steps, &position));
    }
    mix(steps);
    mix(position);
    seal(payload_room, registers);
    seal_bytes(kind_room, registers);
    seal(code_room, words); /* only read */
    seal(slot_room, slots);
    seal_bytes(slot_kind_room, slots);
}

static void table_job(void) {
    make_table();
    length = 4 * nodes;
    params = below(4);
    locals = 6 - params;
    dest = one_in(3) ? 1 + below(8) : 0;
    if (one_in(40)) length -= below(5);
    if (one_in(40)) params = any();
    if (one_in(64)) { params = 65530; locals = below(8); }
    if (one_in(100)) length = 0;
    answer(vosemaqe_check(length ? table : 0, length, params, locals, dest));

    uint32_t n = (uint32_t)length / 4;
    struct room ample = {VOSEMAQE_WORDS_FOR(n), VOSEMAQE_SLOTS_FOR(n), VOSEMAQE_SLOTS_FOR(n), VOSEMAQE_JUMPS_FOR(n)}, room = ample;
    uint8_t number = compile(ample, 1);
    if (number == VOSEMAQE_DONE) {
        struct room exact = {(uint32_t)made.words, (uint32_t)made.slots, (uint32_t)made.slots, below(5)};
        room = exact;
        compile(room, 1); /* full, but perhaps for the jumps */
        uint32_t which = below(3);
        if (which == 0 && room.words) room.words--; /* a Ref alone has no word */
        if (which == 1 && room.kinds) room.kinds--;
        if (which == 2 && room.payloads) room.payloads--;
        compile(room, 0);
        number = compile(exact, 0);
        if (number == VOSEMAQE_DONE && made.frame <= REGISTERS) {
            uint32_t frame = made.frame < 6 ? 6 : (uint32_t)made.frame, spare = below(3);
            if (frame + spare > REGISTERS) spare = 0;
            run(exact.words, exact.kinds, frame + spare, one_in(8) ? below(5) : exact.words);
        }
    } else {
        room.words = below(ample.words + 1);
        room.kinds = below(ample.kinds + 1);
        compile(room, 0);
    }
    evaluate();
    for (uint32_t i = 0; i < 4 * nodes; i++) mix(table[i]); /* only read */
}

/* ---- words */

static uint64_t operand(void) {
    uint32_t q = below(8);
    if (q < 5) return below(7);
    if (q == 5) return 0 - (uint64_t)below(4);
    if (q == 6) return below(70000);
    return whole();
}

static void words_job(void) {
    uint64_t *code = lend(code_room, 8), *slots = lend(slot_room, 4);
    uint8_t *slot_kinds = lend_bytes(slot_kind_room, 4);
    fill(slot_kinds, slots, 4);
    for (uint32_t i = 0; i < 8; i++) {
        uint64_t o[5], made_word = 3, d[6] = {9, 9, 9, 9, 9, 9}, opcode = below(78);
        uint32_t lacks = below(6);
        for (uint32_t k = 0; k < 5; k++) o[k] = k < lacks ? operand() : 0;
        answer(vosemaqe_encode(opcode, o[0], o[1], o[2], o[3], o[4], &made_word));
        mix(made_word);
        uint64_t word = one_in(6) ? any() : made_word;
        if (one_in(6)) word = (word & ~255ull) | below(80);
        answer(vosemaqe_decode(word, d, d + 1, d + 2, d + 3, d + 4, d + 5));
        for (uint32_t k = 0; k < 6; k++) mix(d[k]);
        code[i] = word;
    }
    for (uint32_t i = 0; i < 4; i++) {
        uint64_t at = below(9), target = one_in(4) ? any() : below(9);
        answer(vosemaqe_patch(code, 8, at, target));
    }
    seal(code_room, 8);
    run(8, 4, 8, 24);
}

int test(void) {
    for (uint32_t job = 0; job < JOBS; job++) {
        if (job % (JOBS / 10) == 0) {
            hash = 0xCBF29CE484222325u;
            mix(vosemaqe_version());
        }
        state = (job + 1) * 0x9E3779B97F4A7C15u;
        for (int i = 0; i < 8; i++) draw();
        table_job();
        words_job();
        if (job % (JOBS / 10) == JOBS / 10 - 1) {
            put("jobs to ");
            put_number(job + 1);
            put(": ");
            put_bits(hash);
            put("\n");
        }
    }
    put("numbers met:");
    for (uint32_t i = 0; i < 32; i++)
        if (met[i]) { put(" "); put_number(i); }
    put("\n");
    for (uint32_t i = 0; i < 32; i++)
        if (met[i]) { put("number "); put_number(i); put(" times "); put_number(met[i]); put("\n"); }
    return 0;
}
