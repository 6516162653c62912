/* Document 01's samples through the C boundary, every function, every result and every lent byte: what is lent stands between guard bytes, holds
   no zero before the call, and what is only read is held to a copy. Prints the count of expectations and ends with 1 if one is not met. */
#include "vosemaqe.h"
#include <stdio.h>
#include <string.h>

static int met, missed;
#define EXPECT(x) do { if (x) met++; else { missed++; printf("%s:%d: %s\n", __FILE__, __LINE__, #x); } } while (0)

/* ---- lent memory */

enum { GUARD = 32, ROOM = 8 * 4 * (VOSEMAQE_MAX_NODES + 1), BUFFERS = 8 };
static struct lent { size_t bytes; int reads; _Alignas(8) unsigned char mem[GUARD + ROOM + GUARD], copy[ROOM]; } pool[BUFFERS];
static int used;

/* Room for a call to write to, filled with 0x5A; or a copy of what it may only read. */
static void *lend(const void *from, size_t bytes) {
    struct lent *l = &pool[used++];
    l->bytes = bytes;
    l->reads = from != NULL;
    memset(l->mem, 0xA5, GUARD);
    memset(l->mem + GUARD, 0x5A, bytes);
    memset(l->mem + GUARD + bytes, 0xA5, GUARD);
    if (from) { memcpy(l->mem + GUARD, from, bytes); memcpy(l->copy, from, bytes); }
    return l->mem + GUARD;
}

/* No guard byte was touched, and nothing that was only to be read. */
static int kept(void) {
    int ok = 1;
    for (struct lent *l = pool; l < pool + used; l++) {
        for (size_t i = 0; i < GUARD; i++) ok &= l->mem[i] == 0xA5 && l->mem[GUARD + l->bytes + i] == 0xA5;
        if (l->reads) ok &= !memcmp(l->mem + GUARD, l->copy, l->bytes);
    }
    used = 0;
    return ok;
}

static int zero(const void *p, size_t bytes) {
    for (size_t i = 0; i < bytes; i++) if (((const unsigned char *)p)[i]) return 0;
    return 1;
}

/* ---- tables */

static uint64_t T[4 * (VOSEMAQE_MAX_NODES + 2)];
static size_t N;

static void put(uint64_t kind, uint64_t payload, uint64_t first, uint64_t depth) {
    uint64_t *n = T + 4 * N++;
    n[0] = kind; n[1] = payload; n[2] = first; n[3] = depth;
}
static void leaf(uint64_t kind, uint64_t payload) { put(kind, payload, N, 1); }
static void ref(uint64_t r) { leaf(VOSEMAQE_NODE_REF, r); }
static void num(int64_t n) { leaf(VOSEMAQE_NODE_INT, (uint64_t)n); }
static void over(uint64_t kind, int children) {
    uint64_t first = N, depth = 0;
    for (; children > 0; children--) {
        const uint64_t *c = T + 4 * (first - 1);
        if (depth < c[3]) depth = c[3];
        first = c[2];
    }
    put(kind, 0, first, depth + 1);
}

/* ---- one compile: the answer, and what it left */

static struct { uint8_t number; uint64_t words, slots, reg, frame; } C;
static uint64_t code[4 * (VOSEMAQE_MAX_NODES + 1)], slot_payloads[210];
static uint8_t slot_kinds[210];
static size_t fewer; /* places that the lent jump list is short of VOSEMAQE_JUMPS_FOR */

static void compile(uint64_t params, uint64_t dest, size_t room, size_t slots, int with) {
    uint64_t *cells = lend(NULL, 32), *nodes = lend(T, 32 * N), *w = lend(NULL, 8 * room), *p = lend(NULL, 8 * slots), *j;
    size_t jumps = VOSEMAQE_JUMPS_FOR(N) - fewer;
    uint8_t *k = lend(NULL, slots + 1);
    j = lend(NULL, 8 * jumps);
    C.number = with
        ? vosemaqe_compile_with(nodes, 4 * N, params, 0, dest, w, room, k, slots + 1, p, slots, j, jumps, cells, cells + 1, cells + 2, cells + 3)
        : vosemaqe_compile(nodes, 4 * N, 0, params, dest, w, room, k, slots + 1, p, slots, cells, cells + 1, cells + 2, cells + 3);
    C.words = cells[0]; C.slots = cells[1]; C.reg = cells[2]; C.frame = cells[3];
    memcpy(code, w, 8 * room); memcpy(slot_kinds, k, slots); memcpy(slot_payloads, p, 8 * slots);
    EXPECT(C.words <= room && C.slots <= slots);
    EXPECT(zero(w + C.words, 8 * (room - C.words)) && zero(k + C.slots, slots + 1 - C.slots) && zero(p + C.slots, 8 * (slots - C.slots)));
    EXPECT(C.number == 0 || zero(cells, 32));
    EXPECT(!with || zero(j, 8 * jumps));
    EXPECT(vosemaqe_check(nodes, 4 * N, params, 0, dest) == C.number || C.number == 5 || C.number == 6 || C.number == 7);
    EXPECT(kept());
}

/* first and depth, which the table's builder counted, filled in by the library over what is spoiled. */
static void completes(void) {
    uint64_t *nodes = lend(NULL, 32 * N);
    for (size_t i = 0; i < N; i++) { nodes[4 * i] = T[4 * i]; nodes[4 * i + 1] = T[4 * i + 1]; }
    vosemaqe_complete(nodes, 4 * N);
    EXPECT(!memcmp(nodes, T, 32 * N));
    EXPECT(kept());
}

/* Both ways to compile, with room, answer the same; the number is the answer. */
static uint8_t compiles(uint64_t params, uint64_t dest) {
    compile(params, dest, VOSEMAQE_WORDS_FOR(N), N < 200 ? VOSEMAQE_SLOTS_FOR(N) : 200, 1);
    uint64_t before[] = {C.number, C.words, C.slots, C.reg, C.frame}, first = code[0];
    compile(params, dest, VOSEMAQE_WORDS_FOR(N), N < 200 ? VOSEMAQE_SLOTS_FOR(N) : 200, 0);
    uint64_t after[] = {C.number, C.words, C.slots, C.reg, C.frame};
    EXPECT(!memcmp(before, after, sizeof before) && (C.words == 0 || first == code[0]));
    if (C.number != VOSEMAQE_BAD_NODE) completes();
    N = 0;
    return C.number;
}
static int shape(uint64_t words, uint64_t slots, uint64_t reg, uint64_t frame) {
    return C.number == 0 && C.words == words && C.slots == slots && C.reg == reg && C.frame == frame;
}

/* ---- decoding and encoding: the word is what decodes to these, and comes back */

static int is(uint64_t word, uint64_t opcode, uint64_t a, uint64_t b, uint64_t c, uint64_t d, uint64_t e) {
    uint64_t *o = lend(NULL, 48), *w = lend(NULL, 8), want[] = {opcode, a, b, c, d, e};
    int ok = vosemaqe_decode(word, o, o + 1, o + 2, o + 3, o + 4, o + 5) == 0 && !memcmp(o, want, sizeof want);
    ok &= vosemaqe_encode(opcode, a, b, c, d, e, w) == 0 && *w == word;
    return ok & kept();
}
static int undecoded(uint64_t word) {
    uint64_t *o = lend(NULL, 48);
    return vosemaqe_decode(word, o, o + 1, o + 2, o + 3, o + 4, o + 5) == VOSEMAQE_UNDECODED && zero(o, 48) && kept();
}
static int unfit(uint64_t opcode, uint64_t a, uint64_t b, uint64_t c, uint64_t d, uint64_t e) {
    uint64_t *w = lend(NULL, 8);
    return vosemaqe_encode(opcode, a, b, c, d, e, w) == VOSEMAQE_NO_FIT && *w == 0 && kept();
}

/* ---- a run of what was compiled last, in a store after two other words, and the evaluator */

static struct { uint8_t number; uint64_t kind, payload; } V;
static struct { uint8_t number; uint64_t steps, position, kind, payload; } R;

static void evaluate(uint64_t base, const uint8_t *ks, const uint64_t *ps, size_t n) {
    uint64_t *cells = lend(NULL, 16), *nodes = lend(T, 32 * N), *p = lend(ps, 8 * n);
    uint8_t *k = lend(ks, n);
    V.number = vosemaqe_evaluate(nodes, 4 * N, base, 0, k, n, p, n, cells, cells + 1);
    V.kind = cells[0]; V.payload = cells[1];
    EXPECT(V.number == 0 || zero(cells, 16));
    EXPECT(kept());
}
static void run(const uint8_t *ks, const uint64_t *ps, size_t n, uint64_t budget) {
    uint8_t rk[16] = {0}; uint64_t rp[16] = {0};
    static uint64_t store[3 + VOSEMAQE_WORDS_FOR(VOSEMAQE_MAX_NODES)];
    memcpy(rk, ks, n); memcpy(rp, ps, 8 * n);
    /* the words alone; as a part of a store; alone again, on the temporaries that the run before left */
    for (int turn = 0; turn < 3; turn++) {
        int part = turn == 1;
        uint64_t *cells = lend(NULL, 16), *p = lend(NULL, 8 * 16), *sp = lend(slot_payloads, 8 * C.slots), *w;
        uint8_t *k = lend(NULL, 16), *sk = lend(slot_kinds, C.slots), number;
        memcpy(k, rk, 16); memcpy(p, rp, sizeof rp);
        store[0] = store[1] = store[C.words + 2] = 0;
        memcpy(store + 2, code, 8 * C.words);
        if (part) {
            w = lend(store, 8 * (C.words + 3));
            number = vosemaqe_run_part(w, C.words + 3, 2, C.words + 2, k, 16, p, 16, sk, C.slots, sp, C.slots, budget, cells, cells + 1);
        } else {
            w = lend(code, 8 * C.words);
            number = vosemaqe_run(w, C.words, 0, k, 16, p, 16, sk, C.slots, sp, C.slots, budget, cells, cells + 1);
        }
        if (turn) EXPECT(number == R.number && cells[0] == R.steps && cells[1] == R.position && k[C.reg] == R.kind && p[C.reg] == R.payload);
        R.number = number; R.steps = cells[0]; R.position = cells[1]; R.kind = k[C.reg]; R.payload = p[C.reg];
        EXPECT(!memcmp(k, rk, n) && !memcmp(p, rp, 8 * n) && !memcmp(k + C.frame, rk + C.frame, 16 - C.frame) && !memcmp(p + C.frame, rp + C.frame, 8 * (16 - C.frame)));
        for (uint64_t i = n; i < C.frame; i++) { rk[i] = k[i]; rp[i] = p[i]; }
        EXPECT(kept());
    }
}
/* Evaluates and runs; both must give the number and, for 0, this value. */
static void gives(uint64_t base, const uint8_t *ks, const uint64_t *ps, uint8_t number, uint64_t kind, uint64_t payload) {
    size_t nodes = N;
    evaluate(base, ks, ps, base);
    EXPECT(compiles(base, 0) == 0);
    N = nodes;
    run(ks, ps, base, C.words);
    EXPECT(V.number == number && R.number == number);
    if (number == 0) EXPECT(V.kind == kind && V.payload == payload && R.kind == kind && R.payload == payload && R.position == C.words);
    N = 0;
}
#define INTS(...) (const uint8_t[]){2, 2}, (const uint64_t[]){__VA_ARGS__}

static void less_ternary(int turned) {
    ref(0); ref(1);
    if (turned) { over(VOSEMAQE_NODE_GE, 2); over(VOSEMAQE_NODE_NOT, 1); } else over(VOSEMAQE_NODE_LT, 2);
    num(1); num(2); over(VOSEMAQE_NODE_TERNARY, 3);
}
static void masked(uint64_t mask) { ref(0); num((int64_t)mask); over(VOSEMAQE_NODE_BIT_AND, 2); EXPECT(compiles(1, 0) == 0); }
static void deep(int depth) { leaf(VOSEMAQE_NODE_TRUE, 0); while (--depth > 0) over(VOSEMAQE_NODE_NOT, 1); }
static void wide(int nodes) {
    if (nodes == 1) { ref(0); return; }
    if (nodes == 2) { ref(0); over(VOSEMAQE_NODE_MINUS, 1); return; }
    wide((nodes - 1) / 2); wide(nodes - 1 - (nodes - 1) / 2); over(VOSEMAQE_NODE_ADD, 2);
}
/* Or over so many Refs, a power of two, as shallow as can be: a jump for each, all pending at once. */
static void ors(int refs) {
    if (refs == 1) { ref(0); return; }
    ors(refs / 2); ors(refs / 2); over(VOSEMAQE_NODE_OR, 2);
}
/* Or over so many terms (a < b) == (c < d), of 7 nodes each. */
static void equal_tests(int terms) {
    if (terms > 1) { equal_tests(terms / 2); equal_tests(terms / 2); over(VOSEMAQE_NODE_OR, 2); return; }
    ref(0); ref(1); over(VOSEMAQE_NODE_LT, 2);
    ref(0); ref(1); over(VOSEMAQE_NODE_LT, 2);
    over(VOSEMAQE_NODE_EQ, 2);
}
static uint8_t patch(uint64_t words, uint64_t at, uint64_t target, uint64_t first, uint64_t after) {
    uint64_t *w = lend(NULL, 8 * words);
    for (uint64_t i = 0; i < words; i++) w[i] = first;
    uint8_t n = vosemaqe_patch(w, words, at, target);
    for (uint64_t i = 0; i < words; i++) EXPECT(w[i] == (n == 0 && i == at ? after : first));
    EXPECT(kept());
    return n;
}

int main(void) {
    /* 1, 2: a + 5; a + 32,768 */
    ref(0); num(5); over(VOSEMAQE_NODE_ADD, 2);
    EXPECT(compiles(1, 0) == 0 && shape(1, 0, 1, 2) && code[0] == 5497558139159u && is(code[0], VOSEMAQE_OP_ADD_IMM16, 1, 0, 5, 0, 0));
    ref(0); num(32768); over(VOSEMAQE_NODE_ADD, 2);
    EXPECT(compiles(1, 0) == 0 && shape(2, 0, 1, 2) && is(code[0], VOSEMAQE_OP_LOAD_IMM40, 1, 131072, 0, 0, 0) && is(code[1], VOSEMAQE_OP_ADD, 1, 0, 1, 0, 0));
    ref(0); num(-32768); over(VOSEMAQE_NODE_ADD, 2);
    EXPECT(compiles(1, 1) == 0 && shape(1, 0, 0, 1) && is(code[0], VOSEMAQE_OP_ADD_IMM16, 0, 0, (uint64_t)-32768, 0, 0));
    /* 3, 4: a < b ? 1 : 2, and a NaN */
    const uint64_t whole[] = {0x0000020001000033u, 0x04000203u, 0x141u, 0x08000203u}, nan = 0x7FF8000000000000u, one = 0x3FF0000000000000u;
    less_ternary(0);
    EXPECT(compiles(2, 0) == 0 && shape(4, 0, 2, 3) && !memcmp(code, whole, sizeof whole));
    EXPECT(is(code[0], VOSEMAQE_OP_JNLT, 0, 1, 2, 0, 0) && is(code[2], VOSEMAQE_OP_JMP, 1, 0, 0, 0, 0));
    less_ternary(0); gives(2, INTS(3, 4), 0, VOSEMAQE_INT, 1);
    less_ternary(0); gives(2, INTS(4, 4), 0, VOSEMAQE_INT, 2);
    less_ternary(0); gives(2, (const uint8_t[]){3, 3}, (const uint64_t[]){nan, one}, 0, VOSEMAQE_INT, 2);
    less_ternary(1); gives(2, (const uint8_t[]){3, 3}, (const uint64_t[]){nan, one}, 0, VOSEMAQE_INT, 1);
    less_ternary(0); gives(2, (const uint8_t[]){0, 3}, (const uint64_t[]){0, one}, VOSEMAQE_WRONG_KIND, 0, 0);
    /* document 02, W8: a Float literal is finite; a register may hold any Float */
    leaf(VOSEMAQE_NODE_FLOAT, 0x7FF0000000000000u); EXPECT(compiles(0, 0) == VOSEMAQE_BAD_NODE);
    leaf(VOSEMAQE_NODE_FLOAT, nan); EXPECT(compiles(0, 0) == VOSEMAQE_BAD_NODE);
    leaf(VOSEMAQE_NODE_FLOAT, 0xFFEFFFFFFFFFFFFFu); EXPECT(compiles(0, 0) == 0);
    /* 5: a test 5 < a, jumping if false */
    num(5); ref(0); over(VOSEMAQE_NODE_LT, 2); num(1); num(2); over(VOSEMAQE_NODE_TERNARY, 3);
    EXPECT(compiles(1, 0) == 0 && is(code[0], VOSEMAQE_OP_JNGT_IMM16, 0, 5, 2, 0, 0));
    /* 6, 7: masks */
    masked(0xFF0); EXPECT(shape(1, 0, 1, 2) && is(code[0], VOSEMAQE_OP_BIT_AND_MASK, 1, 0, 4, 8, 0));
    masked(5); EXPECT(shape(2, 0, 1, 2) && is(code[1], VOSEMAQE_OP_BIT_AND, 1, 0, 1, 0, 0));
    masked((1ull << 61) - 1); EXPECT(shape(1, 0, 1, 2) && is(code[0], VOSEMAQE_OP_BIT_AND_MASK, 1, 0, 0, 61, 0));
    masked(1ull << 61); EXPECT(shape(2, 1, 1, 2) && is(code[0], VOSEMAQE_OP_LOAD_CONST, 1, 0, 0, 0, 0) && slot_kinds[0] == VOSEMAQE_INT && slot_payloads[0] == 1ull << 61);
    /* 8: immediates and slots */
    num((1ll << 37) - 1); EXPECT(compiles(0, 0) == 0 && shape(1, 0, 1, 2) && is(code[0], VOSEMAQE_OP_LOAD_IMM40, 1, (1ull << 39) - 4, 0, 0, 0));
    num(-(1ll << 37)); EXPECT(compiles(0, 0) == 0 && shape(1, 0, 1, 2) && is(code[0], VOSEMAQE_OP_LOAD_IMM40, 1, (uint64_t)-(1ll << 39), 0, 0, 0));
    num(1ll << 37); EXPECT(compiles(0, 0) == 0 && shape(1, 1, 1, 2) && slot_kinds[0] == VOSEMAQE_INT && slot_payloads[0] == 1ull << 37);
    num(1ll << 37); compile(0, 0, 4, 0, 0); EXPECT(C.number == VOSEMAQE_NO_SLOT);
    compile(0, 0, 0, 1, 1); EXPECT(C.number == VOSEMAQE_NO_ROOM);
    compile(0, 1, 4, 1, 0); EXPECT(C.number == VOSEMAQE_NOT_LOCAL);
    N = 0;
    /* 9: patching */
    uint64_t jlt = 0, jmp = 0, aimed = 0;
    EXPECT(vosemaqe_encode(VOSEMAQE_OP_JLT, 1, 2, 0, 0, 0, &jlt) == 0 && vosemaqe_encode(VOSEMAQE_OP_JMP, 0, 0, 0, 0, 0, &jmp) == 0);
    EXPECT(vosemaqe_encode(VOSEMAQE_OP_JLT, 1, 2, 8388607, 0, 0, &aimed) == 0 && patch(3, 0, 8388608, jlt, aimed) == 0);
    EXPECT(patch(3, 0, 8388609, jlt, 0) == VOSEMAQE_TOO_FAR && patch(3, 1, UINT64_MAX, jlt, 0) == VOSEMAQE_TOO_FAR);
    EXPECT(vosemaqe_encode(VOSEMAQE_OP_JMP, (uint64_t)-3, 0, 0, 0, 0, &aimed) == 0 && patch(3, 2, 0, jmp, aimed) == 0);
    EXPECT(patch(3, 3, 0, jmp, 0) == VOSEMAQE_NO_WORD && patch(0, 0, 0, jmp, 0) == VOSEMAQE_NO_WORD && patch(2, SIZE_MAX, 0, jmp, 0) == VOSEMAQE_NO_WORD);
    EXPECT(patch(2, 1, 0, 77, 0) == VOSEMAQE_UNDECODED && patch(2, 1, 0, whole[1], 0) == VOSEMAQE_NOT_BRANCH);
    /* 10: Minus of -2^63 */
    ref(0); over(VOSEMAQE_NODE_MINUS, 1); gives(1, INTS(1ull << 63), VOSEMAQE_OVERFLOW, 0, 0);
    /* 11: the last registers */
    leaf(VOSEMAQE_NODE_NIL, 0); EXPECT(compiles(65534, 0) == 0 && shape(1, 0, 65534, 65535));
    leaf(VOSEMAQE_NODE_NIL, 0); EXPECT(compiles(65535, 0) == VOSEMAQE_NO_REGISTER);
    leaf(VOSEMAQE_NODE_NIL, 0); EXPECT(vosemaqe_check(T, 4, UINT64_MAX, 1, 0) == VOSEMAQE_NO_REGISTER && vosemaqe_check(T, 4, 7, 0, UINT64_MAX) == VOSEMAQE_NOT_LOCAL); N = 0;
    /* 12: depth and nodes */
    EXPECT(VOSEMAQE_MAX_DEPTH == 200 && VOSEMAQE_MAX_NODES == 65536);
    deep(200); EXPECT(compiles(0, 0) == 0 && shape(200, 0, 1, 2));
    deep(201); EXPECT(compiles(0, 0) == VOSEMAQE_TOO_DEEP);
    deep(199); put(VOSEMAQE_NODE_NOT, 0, 0, 201); EXPECT(compiles(0, 0) == VOSEMAQE_BAD_NODE);
    wide(65536); EXPECT(compiles(1, 0) == 0);
    wide(65537); EXPECT(compiles(1, 0) == VOSEMAQE_BAD_SHAPE);
    wide(65536); EXPECT(vosemaqe_check(T, 4 * 65536, 1, 0, 0) == 0 && vosemaqe_check(T, 4 * 65536 + 1, 1, 0, 0) == VOSEMAQE_BAD_SHAPE); N = 0;
    /* around the length of each jump list that vosemaqe_compile has */
    static const int lists[] = {64, 512, 4096};
    for (int i = 0; i < 3; i++) for (int more = 0; more < 2; more++) { wide(lists[i] + more); EXPECT(compiles(1, 0) == 0); }
    for (int refs = 32; refs <= 32768; refs *= 2) {
        /* a word for each jump, False, a jmp, True; the last nodes make an even number: half as many jumps are pending */
        ors(refs); EXPECT(compiles(1, 0) == 0 && shape(refs + 3, 0, 1, 2) && is(code[0], VOSEMAQE_OP_IF_TRUE, 0, refs + 1, 0, 0, 0));
        ors(refs); fewer = 1; compile(1, 0, VOSEMAQE_WORDS_FOR(N), 1, 1); EXPECT(C.number == VOSEMAQE_NO_ROOM); fewer = 0; N = 0;
        ors(refs); over(VOSEMAQE_NODE_NOT, 1); EXPECT(compiles(1, 0) == 0);
    }
    /* 199 Minus over a Ref; 200 levels of Eq over constants, each held while the rest is made; a jump over 73,700 words */
    ref(0); for (int i = 0; i < 199; i++) over(VOSEMAQE_NODE_MINUS, 1);
    gives(1, INTS(5), 0, VOSEMAQE_INT, (uint64_t)-5);
    for (int i = 0; i < 200; i++) num(1ll << 40);
    for (int i = 0; i < 199; i++) over(VOSEMAQE_NODE_EQ, 2);
    EXPECT(compiles(1, 0) == 0 && C.frame == 400);
    equal_tests(8192); EXPECT(N == 65535 && compiles(2, 0) == 0 && C.words == 73731 && is(code[8], VOSEMAQE_OP_JEQ, 3, 4, 73721, 0, 0));
    /* 13: shifts */
    ref(0); num(63); over(VOSEMAQE_NODE_LSHIFT, 2); EXPECT(compiles(1, 0) == 0 && shape(1, 0, 1, 2) && is(code[0], VOSEMAQE_OP_LSHIFT_IMM, 1, 0, 63, 0, 0));
    ref(0); num(64); over(VOSEMAQE_NODE_LSHIFT, 2); gives(1, INTS(1), VOSEMAQE_BAD_SHIFT, 0, 0);
    /* a || b as a value: two jumps pending in a list of two */
    ref(0); ref(1); over(VOSEMAQE_NODE_OR, 2); gives(2, (const uint8_t[]){1, 1}, (const uint64_t[]){0, 1}, 0, VOSEMAQE_BOOL, 1);
    /* 14: a lone Ref */
    ref(0); EXPECT(compiles(1, 0) == 0 && shape(0, 0, 0, 1));
    run(INTS(7), 1, 0); EXPECT(R.number == 0 && R.steps == 0 && R.position == 0 && R.kind == VOSEMAQE_INT && R.payload == 7);
    /* the table's other refusals; nothing lent at all */
    ref(0); EXPECT(vosemaqe_check(T, 3, 1, 0, 0) == VOSEMAQE_BAD_SHAPE && vosemaqe_check(NULL, 0, 1, 0, 0) == VOSEMAQE_BAD_SHAPE && vosemaqe_check(T, 4, 0, 0, 0) == VOSEMAQE_NOT_LOCAL);
    T[0] = 27; EXPECT(compiles(1, 0) == VOSEMAQE_BAD_NODE);
    /* nothing but leaves: each is right, and the last is no root */
    while (N < VOSEMAQE_MAX_NODES) leaf(VOSEMAQE_NODE_NIL, 0);
    EXPECT(vosemaqe_check(T, 4 * N, 0, 0, 0) == VOSEMAQE_BAD_NODE); N = 0;
    uint64_t a = 9, b = 9, c = 9, d = 9;
    EXPECT(vosemaqe_compile(NULL, 0, 0, 0, 0, NULL, 0, NULL, 0, NULL, 0, &a, &b, &c, &d) == VOSEMAQE_BAD_SHAPE && !(a | b | c | d));
    EXPECT(vosemaqe_run(NULL, 0, 0, NULL, 0, NULL, 0, NULL, 0, NULL, 0, 0, &a, &b) == 0 && !(a | b));
    EXPECT(vosemaqe_patch(NULL, 0, 0, 0) == VOSEMAQE_NO_WORD);
    /* first and depth: 0 where children are missing; words after the last whole node stay */
    uint64_t lone[] = {VOSEMAQE_NODE_ADD, 0, 7, 7, 8, 9, 10}, filled[] = {VOSEMAQE_NODE_ADD, 0, 0, 0, 8, 9, 10};
    vosemaqe_complete(NULL, 0);
    vosemaqe_complete(lone, 7);
    EXPECT(!memcmp(lone, filled, sizeof lone) && vosemaqe_check(lone, 4, 0, 0, 0) == VOSEMAQE_BAD_NODE);
    EXPECT(vosemaqe_version() == VOSEMAQE_VERSION);
    /* the evaluator's refusals of what is lent */
    ref(0); evaluate(1, (const uint8_t[]){2}, (const uint64_t[]){7}, 1); EXPECT(V.number == 0 && V.kind == VOSEMAQE_INT && V.payload == 7);
    evaluate(1, (const uint8_t[]){1}, (const uint64_t[]){2}, 1); EXPECT(V.number == VOSEMAQE_ILL_FORMED);
    evaluate(2, (const uint8_t[]){2}, (const uint64_t[]){7}, 1); EXPECT(V.number == VOSEMAQE_OUT_OF_RANGE);
    N = 0;
    /* the machine's refusals: budget, start, part, ill-formed, panic, not run, undecoded, a register */
    less_ternary(0); EXPECT(compiles(2, 0) == 0);
    run(INTS(3, 4), 2, 1); EXPECT(R.number == VOSEMAQE_BUDGET_SPENT && R.steps == 1 && R.position == 1);
    static const struct { uint64_t word; uint8_t kind, number; } stops[] = {
        {0, 2, VOSEMAQE_PANIC_WORD}, {1, 2, VOSEMAQE_NOT_RUN}, {77, 2, VOSEMAQE_UNDECODED}, {0x04000903, 2, VOSEMAQE_OUT_OF_RANGE}, {2, 4, VOSEMAQE_ILL_FORMED}, {2, 2, 0}};
    for (size_t i = 0; i < sizeof stops / sizeof *stops; i++) {
        uint64_t *cells = lend(NULL, 16), *w = lend(&stops[i].word, 8), *p = lend(NULL, 8);
        uint8_t *k = lend(NULL, 1), n = stops[i].number;
        *k = stops[i].kind;
        EXPECT(vosemaqe_run(w, 1, 0, k, 1, p, 1, NULL, 0, NULL, 0, 5, cells, cells + 1) == n && cells[0] == (n == 0) && cells[1] == (n == 0));
        EXPECT(vosemaqe_run(w, 1, 2, k, 1, p, 1, NULL, 0, NULL, 0, 5, cells, cells + 1) == VOSEMAQE_OUT_OF_RANGE && cells[0] == 0 && cells[1] == 2);
        EXPECT(vosemaqe_run_part(w, 1, 1, 0, k, 1, p, 1, NULL, 0, NULL, 0, 5, cells, cells + 1) == VOSEMAQE_OUT_OF_RANGE && cells[0] == 0 && cells[1] == 1);
        EXPECT(*k == stops[i].kind && *p == 0x5A5A5A5A5A5A5A5A && kept());
    }
    /* words that do not decode; operands that do not fit; every opcode with the least operands comes back */
    EXPECT(undecoded(77) && undecoded(255) && undecoded(4 | 1ull << 40) && undecoded(3 | 2ull << 24) && undecoded(UINT64_MAX));
    EXPECT(unfit(77, 0, 0, 0, 0, 0) && unfit(UINT64_MAX, 0, 0, 0, 0, 0) && unfit(256 + VOSEMAQE_OP_MOV, 0, 0, 0, 0, 0));
    EXPECT(unfit(VOSEMAQE_OP_MOV, 65536, 0, 0, 0, 0) && unfit(VOSEMAQE_OP_MOV, 0, 0, 1, 0, 0) && unfit(VOSEMAQE_OP_BIT_AND_MASK, 0, 0, 64, 0, 0));
    EXPECT(unfit(VOSEMAQE_OP_ADD_IMM16, 0, 0, 32768, 0, 0) && unfit(VOSEMAQE_OP_JMP, 1ull << 31, 0, 0, 0, 0) && unfit(VOSEMAQE_OP_RET_IMM40, 2, 0, 0, 0, 0));
    for (uint64_t o = 0; o < 77; o++) { uint64_t w; EXPECT(vosemaqe_encode(o, 0, 0, 0, 0, 0, &w) == 0 && w == o && is(o, o, 0, 0, 0, 0, 0)); }
    EXPECT(is(VOSEMAQE_OP_JLT_IMM16 | 7u << 8 | 0xFFFFull << 24 | 0x800000ull << 40, VOSEMAQE_OP_JLT_IMM16, 7, UINT64_MAX, (uint64_t)-8388608, 0, 0));
    EXPECT(is(VOSEMAQE_OP_RSHIFT_MASK | 1u << 8 | 2ull << 24 | 3ull << 40 | 4ull << 46 | 63ull << 52, VOSEMAQE_OP_RSHIFT_MASK, 1, 2, 3, 4, 63));
    printf("boundary: %d expectations met, %d not\n", met, missed);
    return missed != 0;
}
