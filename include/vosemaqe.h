/* vosemaqe.h: expressions over registers, checked, compiled to instruction words, evaluated and run.
 *
 * This header is the manual of libvosemaqe.a (x86-64 Linux; link nothing beside it but a C library, for memset). What each function returns and leaves
 * behind is proved, on every input (docs/CLAIMS.md); bytes of stack are measured (docs/STACK.md); docs/TRUST.md says what is trusted. On other processors
 * docs/PORTING.md says what is linked beside it, and docs/STACK.md has their stack.
 *
 *     make install PREFIX=/usr/local                      proves the library, then installs header, archive and pkg-config file
 *     cc prog.c $(pkg-config --cflags --libs vosemaqe)
 *
 * WHAT EVERY FUNCTION PROMISES
 *
 *   - It returns on every input. It returns a number: 0 for done, else the reason (enum vosemaqe_number). Only vosemaqe_complete, which refuses nothing, and
 *     vosemaqe_version do not. Its time is bounded by the lengths of what it is lent, and that of a run by its budget.
 *   - It reads and writes only what it is lent. It allocates nothing, keeps nothing, has no state, and calls nothing but memset. So any number of
 *     threads may call at once, each with buffers of its own; a buffer that is only read may be shared.
 *   - Every result cell is written: it holds 0 where the number is not 0, but for the steps and the position of a run, which a stopped run has too.
 *   - Its stack is bounded: recursion ends at VOSEMAQE_MAX_DEPTH. Room for every table: 448 KiB in vosemaqe_compile, of which 256 KiB are a jump list that
 *     only tables of more than 4,096 nodes take (208 KiB up to 4,096 nodes, 192 KiB up to 512); 188 KiB in vosemaqe_compile_with, to which a list is lent:
 *     it is the entry for small stacks; 48 KiB in vosemaqe_evaluate; 1 KiB in every other function. A table that is less deep takes less: at most 920 bytes
 *     a level in a compile, 224 in vosemaqe_evaluate. docs/STACK.md has the figures.
 *
 * WHAT THE CALLER OWES
 *
 *   - A pointer and its length describe memory that is the caller's, aligned for its type. A length counts elements, not bytes: a table of 6 nodes is lent
 *     as 24 words. Lengths, positions and counts are 64 bits wide. A pointer whose length is 0 is never followed: it may be null. A result cell is one
 *     uint64_t and is never null.
 *   - A buffer or cell that is written must not overlap anything else that is lent to the same call. Buffers that are only read may overlap.
 *   - The processor's float control is as a process starts with it: rounding to nearest, subnormal numbers kept (no -ffast-math when linking).
 *
 * VALUES are lent as pairs, a kind byte and a 64-bit payload, in two arrays. Where the two have different lengths the shorter counts. A pair that
 * is none of these is ill-formed (29):
 *
 *     kind                    payload
 *     VOSEMAQE_NIL            0
 *     VOSEMAQE_BOOL           0 or 1
 *     VOSEMAQE_INT            two's complement
 *     VOSEMAQE_FLOAT          the bits of an IEEE 754 binary64
 *
 * NODE TABLES are runs of 64-bit words, four to a node: kind, payload, first, depth. Nodes stand in post-order, the root last: the last child
 * of node i is i - 1, the child before it ends just before that one's `first`. `first` is the lowest node of the subtree; `depth` is 1 for a leaf,
 * else one more than the deepest child's. vosemaqe_complete fills in both. The payload is 0 but for an Int (two's complement), a Float (bits) and a Ref
 * (a register). The base is `params` + `locals`: a Ref and a destination name a register below it. `dest` is 0 for none, r + 1 for register r.
 *
 * WHAT AN EXPRESSION MEANS, evaluated or run. Left comes before right. Where several faults fit one operation, the first of 20, 23, 22 or 24, 21 counts.
 *
 *   - ADD, SUB, MUL: two Ints give the exact Int, or 21; with a Float, an Int in -2^53..2^53 converts exactly and any other is 23. MINUS is MUL by Int -1.
 *     DIV converts both to Float. Float results are rounded to nearest, ties to even, as IEEE 754 says; a NaN that arithmetic yields is 0x7FF8000000000000.
 *   - MOD takes Ints; the result has the sign of the dividend; a zero divisor is 22. BIT_AND, BIT_OR, BIT_XOR take Ints. LSHIFT is exact, or 21; RSHIFT rounds
 *     toward minus infinity; an amount outside 0..63 is 24.
 *   - LT, LE, GT, GE take numbers; a NaN is unordered. EQ and NE take any values; different kinds are unequal, but an Int and a Float are compared as numbers.
 *     All six compare an Int with a Float exactly, by the numbers that they are, whatever their size: never 23. The infinities lie beyond every Int; a NaN is
 *     unordered and unequal; -0.0 is 0.
 *   - AND, OR, NOT and the test of a TERNARY take a Bool; anything else is 20. Operands that need not be evaluated are skipped.
 *
 * RUNNING AGREES WITH EVALUATING. This is proved for every table that a compile accepts and for every value that its locals may hold. Lend to vosemaqe_run
 *
 *   - all the *words words of the compile, and start at 0 (or lend to vosemaqe_run_part a store and the part of it that is these words);
 *   - its slots: the *slots constants, and behind them any well-formed values, such as the zeros that the compile left there;
 *   - at least *frame registers, every one well-formed, the locals in those below params + locals;
 *   - a budget of at least *words.
 *
 * Then
 *
 *   - where vosemaqe_evaluate gives a value for the table on the same registers, the run is done: it returns 0 at position *words, and register *reg holds
 *     that value, bit for bit. Where it gives a fault, one of 20 to 24, the run returns that number. The run returns no other number;
 *   - the run takes at most *words steps, and fewer where it returns a fault;
 *   - the temporaries are the registers from max(params + locals, 1) up to *frame, *frame not included. Every register below them but the destination, and
 *     every register from *frame on, is as it was. The destination is written only where the run is done: after a fault it too is as it was;
 *   - what the temporaries held before changes neither number nor steps nor position nor value. But they are checked like every register: a pair that is
 *     ill-formed is 29, so fill them once, with VOSEMAQE_NIL and 0. What they hold afterwards is well-formed, and means nothing.
 */
#ifndef VOSEMAQE_H
#define VOSEMAQE_H

#include <stdint.h>

#ifdef __cplusplus
extern "C" {
#endif

/* The version of this header: 10000 * major + 100 * minor + patch. vosemaqe_version() gives that of the library; CHANGELOG.md says what changed. */
#define VOSEMAQE_VERSION 100

/* The numbers. */
enum vosemaqe_number {
    VOSEMAQE_DONE = 0,
    VOSEMAQE_BAD_SHAPE = 1,     /* table empty, not a multiple of 4 words, or over VOSEMAQE_MAX_NODES */
    VOSEMAQE_BAD_NODE = 2,      /* unknown kind, non-zero payload, a Float that is not finite, missing child, wrong first or depth, or
                                   last node's first not 0 */
    VOSEMAQE_TOO_DEEP = 3,      /* depth over VOSEMAQE_MAX_DEPTH */
    VOSEMAQE_NOT_LOCAL = 4,     /* Ref or destination not below the base */
    VOSEMAQE_NO_REGISTER = 5,   /* parameters plus locals, or an allocation, pass VOSEMAQE_MAX_REGISTERS */
    VOSEMAQE_NO_SLOT = 6,       /* no constant slot left */
    VOSEMAQE_NO_ROOM = 7,       /* no room for a word, or for a jump in a lent jump list */
    VOSEMAQE_TOO_FAR = 8,       /* displacement outside its field when patching; no compile gives it */
    VOSEMAQE_NO_FIT = 9,        /* an operand does not fit its field, or no such opcode */
    VOSEMAQE_UNDECODED = 10,    /* a word that does not decode */
    VOSEMAQE_NOT_BRANCH = 11,   /* patching: not a branch */
    VOSEMAQE_NO_WORD = 12,      /* patching: no word at the branch position */
    VOSEMAQE_WRONG_KIND = 20,   /* wrong kind of value */
    VOSEMAQE_OVERFLOW = 21,     /* integer result outside 64 bits signed */
    VOSEMAQE_MOD_BY_ZERO = 22,
    VOSEMAQE_NOT_EXACT = 23,    /* Int outside -2^53..2^53 meets a Float in Add, Sub or Mul, or stands in Div; no comparison gives it */
    VOSEMAQE_BAD_SHIFT = 24,    /* shift amount outside 0..63 */
    VOSEMAQE_BUDGET_SPENT = 25,
    VOSEMAQE_OUT_OF_RANGE = 26, /* register, slot, start, part or taken target out of range; fewer locals than the base */
    VOSEMAQE_PANIC_WORD = 27,
    VOSEMAQE_NOT_RUN = 28,      /* an opcode that this machine does not run */
    VOSEMAQE_ILL_FORMED = 29    /* ill-formed value lent */
};

/* The limits. */
#define VOSEMAQE_MAX_NODES 65536
#define VOSEMAQE_MAX_DEPTH 200
#define VOSEMAQE_MAX_REGISTERS 65535

/* What to lend. A compile of n nodes makes at most 4 * n words, one constant at most for each Int or Float node, and needs at most (n + 1) / 2 places in a
 * jump list; with this much it is refused only for its table, or for registers (5). A run needs as many registers as the frame that compile reports. */
#define VOSEMAQE_NODE_WORDS 4
#define VOSEMAQE_WORDS_FOR(nodes) (4 * (nodes))
#define VOSEMAQE_SLOTS_FOR(nodes) (nodes)
#define VOSEMAQE_JUMPS_FOR(nodes) (((nodes) + 1) / 2)

/* The kinds of a value. */
enum vosemaqe_value { VOSEMAQE_NIL = 0, VOSEMAQE_BOOL = 1, VOSEMAQE_INT = 2, VOSEMAQE_FLOAT = 3 };

/* The kinds of a node. Children in order: one for MINUS and NOT, two from BIT_AND to OR, three (test, then, else) for TERNARY. */
enum vosemaqe_node {
    VOSEMAQE_NODE_NIL = 0, VOSEMAQE_NODE_TRUE = 1, VOSEMAQE_NODE_FALSE = 2, VOSEMAQE_NODE_INT = 3, VOSEMAQE_NODE_FLOAT = 4, VOSEMAQE_NODE_REF = 5,
    VOSEMAQE_NODE_MINUS = 6, VOSEMAQE_NODE_NOT = 7,
    VOSEMAQE_NODE_BIT_AND = 8, VOSEMAQE_NODE_BIT_OR = 9, VOSEMAQE_NODE_BIT_XOR = 10, VOSEMAQE_NODE_LSHIFT = 11, VOSEMAQE_NODE_RSHIFT = 12,
    VOSEMAQE_NODE_ADD = 13, VOSEMAQE_NODE_SUB = 14, VOSEMAQE_NODE_MUL = 15, VOSEMAQE_NODE_DIV = 16, VOSEMAQE_NODE_MOD = 17,
    VOSEMAQE_NODE_EQ = 18, VOSEMAQE_NODE_NE = 19, VOSEMAQE_NODE_LT = 20, VOSEMAQE_NODE_LE = 21, VOSEMAQE_NODE_GT = 22, VOSEMAQE_NODE_GE = 23,
    VOSEMAQE_NODE_AND = 24, VOSEMAQE_NODE_OR = 25, VOSEMAQE_NODE_TERNARY = 26
};

/* The opcodes, the low byte of a word. The operands follow in declared order, each above the one before it, the first from bit 8 on; bits above the last
 * one are 0. Beside each name stand its operands, with their widths in bits:
 *
 *     r       a register, 16
 *     s       a constant slot, 32
 *     i       a signed literal, 16
 *     v       the raw bits of a value, 40, signed: 4n for an Int n, 1 for Nil, 5 for False, 9 for True
 *     nW      an unsigned number, W
 *     jW      a signed displacement, W: target - position - 1
 *
 * A * marks what the machine runs; panic stops it with 27, any other with 28. */
enum vosemaqe_opcode {
    VOSEMAQE_OP_PANIC = 0,
    VOSEMAQE_OP_BREAKPOINT = 1,
    VOSEMAQE_OP_NOP = 2,                  /* * */
    VOSEMAQE_OP_LOAD_IMM40 = 3,           /* r v * */
    VOSEMAQE_OP_MOV = 4,                  /* r r * */
    VOSEMAQE_OP_LOAD_CONST = 5,           /* r s * */
    VOSEMAQE_OP_GET_GLOBAL = 6,           /* r n32 */
    VOSEMAQE_OP_SET_GLOBAL = 7,           /* r n32 */
    VOSEMAQE_OP_LSHIFT = 8,               /* r r r * */
    VOSEMAQE_OP_RSHIFT = 9,               /* r r r * */
    VOSEMAQE_OP_BIT_AND = 10,             /* r r r * */
    VOSEMAQE_OP_BIT_OR = 11,              /* r r r * */
    VOSEMAQE_OP_BIT_XOR = 12,             /* r r r * */
    VOSEMAQE_OP_BIT_NOT = 13,             /* r r */
    VOSEMAQE_OP_LSHIFT_IMM = 14,          /* r r n6 * */
    VOSEMAQE_OP_RSHIFT_IMM = 15,          /* r r n6 * */
    VOSEMAQE_OP_BIT_AND_MASK = 16,        /* r r n6 n6 * */
    VOSEMAQE_OP_RSHIFT_MASK = 17,         /* r r n6 n6 n6 * */
    VOSEMAQE_OP_ADD = 18,                 /* r r r * */
    VOSEMAQE_OP_SUB = 19,                 /* r r r * */
    VOSEMAQE_OP_MUL = 20,                 /* r r r * */
    VOSEMAQE_OP_DIV = 21,                 /* r r r * */
    VOSEMAQE_OP_MODULO = 22,              /* r r r * */
    VOSEMAQE_OP_ADD_IMM16 = 23,           /* r r i * */
    VOSEMAQE_OP_SUB_IMM16 = 24,           /* r r i * */
    VOSEMAQE_OP_MUL_IMM16 = 25,           /* r r i * */
    VOSEMAQE_OP_NOT = 26,                 /* r r * */
    VOSEMAQE_OP_CLOS_NEW = 27,            /* r n24 n12 */
    VOSEMAQE_OP_CLOS_SET = 28,            /* r r n12 */
    VOSEMAQE_OP_CLOS_GET = 29,            /* r n12 */
    VOSEMAQE_OP_CELL_NEW = 30,            /* r */
    VOSEMAQE_OP_CELL_SET = 31,            /* r r */
    VOSEMAQE_OP_CELL_GET = 32,            /* r r */
    VOSEMAQE_OP_INSTANCEOF = 33,          /* r r n24 */
    VOSEMAQE_OP_INSTANCEOF_SUB = 34,      /* r r n24 */
    VOSEMAQE_OP_GET_FIELD = 35,           /* r r n24 */
    VOSEMAQE_OP_SET_FIELD = 36,           /* r r n24 */
    VOSEMAQE_OP_GET_INDEX = 37,           /* r r r */
    VOSEMAQE_OP_SET_INDEX = 38,           /* r r r */
    VOSEMAQE_OP_DICT_NEW = 39,            /* r */
    VOSEMAQE_OP_ARR_NEW = 40,             /* r n32 */
    VOSEMAQE_OP_ARR_PUSH = 41,            /* r r */
    VOSEMAQE_OP_BA_CLONE = 42,            /* r r */
    VOSEMAQE_OP_IF_TRUE = 43,             /* r j32 * */
    VOSEMAQE_OP_IF_FALSE = 44,            /* r j32 * */
    VOSEMAQE_OP_JEQ = 45,                 /* r r j24 * */
    VOSEMAQE_OP_JNE = 46,                 /* r r j24 * */
    VOSEMAQE_OP_JLT = 47,                 /* r r j24 * */
    VOSEMAQE_OP_JLE = 48,                 /* r r j24 * */
    VOSEMAQE_OP_JGT = 49,                 /* r r j24 * */
    VOSEMAQE_OP_JGE = 50,                 /* r r j24 * */
    VOSEMAQE_OP_JNLT = 51,                /* r r j24 * */
    VOSEMAQE_OP_JNLE = 52,                /* r r j24 * */
    VOSEMAQE_OP_JNGT = 53,                /* r r j24 * */
    VOSEMAQE_OP_JNGE = 54,                /* r r j24 * */
    VOSEMAQE_OP_JEQ_IMM16 = 55,           /* r i j24 * */
    VOSEMAQE_OP_JNE_IMM16 = 56,           /* r i j24 * */
    VOSEMAQE_OP_JLT_IMM16 = 57,           /* r i j24 * */
    VOSEMAQE_OP_JLE_IMM16 = 58,           /* r i j24 * */
    VOSEMAQE_OP_JGT_IMM16 = 59,           /* r i j24 * */
    VOSEMAQE_OP_JGE_IMM16 = 60,           /* r i j24 * */
    VOSEMAQE_OP_JNLT_IMM16 = 61,          /* r i j24 * */
    VOSEMAQE_OP_JNLE_IMM16 = 62,          /* r i j24 * */
    VOSEMAQE_OP_JNGT_IMM16 = 63,          /* r i j24 * */
    VOSEMAQE_OP_JNGE_IMM16 = 64,          /* r i j24 * */
    VOSEMAQE_OP_JMP = 65,                 /* j32 * */
    VOSEMAQE_OP_CALL_OPND = 66,           /* r n8 n24 */
    VOSEMAQE_OP_CALL_HOST = 67,           /* n16 r n8 */
    VOSEMAQE_OP_CALL_DIRECT = 68,         /* n24 r n8 */
    VOSEMAQE_OP_CALL_PC = 69,             /* r n8 n24 */
    VOSEMAQE_OP_CALL_METHOD = 70,         /* r n8 n24 */
    VOSEMAQE_OP_CALL_METHOD_HOST = 71,    /* r n8 n8 n24 */
    VOSEMAQE_OP_CALL_IDIV_INT = 72,       /* r n8 n24 */
    VOSEMAQE_OP_NEW = 73,                 /* n24 r n8 */
    VOSEMAQE_OP_NEW_KNOWN_CTOR = 74,      /* r n8 n24 */
    VOSEMAQE_OP_RET = 75,                 /* r */
    VOSEMAQE_OP_RET_IMM40 = 76            /* v */
};

/* The version of the library, as VOSEMAQE_VERSION counts it: equal to the header's, or the program was compiled with another version's header. */
uint32_t vosemaqe_version(void);

/* Fills in the first and depth of every node, from the kinds alone, whatever stood there. Kinds and payloads stay, and so do words after the last whole
 * node. A node whose children are missing gets 0 and 0: no depth is 0, so vosemaqe_check refuses its table. An unknown kind is taken to have three. */
void vosemaqe_complete(uint64_t *nodes, uint64_t nodes_len);

/* The number of a table with its layout and its destination: 0 to 5, the first fault in this order: 1, 5 of the layout, 4 of the destination,
 * 2, 3, 4 of each node from 0 upward, 2 of the last node's first. */
uint8_t vosemaqe_check(const uint64_t *nodes, uint64_t nodes_len, uint64_t params, uint64_t locals, uint64_t dest);

/* Compiles a table. Done: `code` holds *words words and zeros after them; slot_kinds and slot_payloads hold *slots constants and zeros after them;
 * *reg is the register that holds the value after a run (the destination, if one was given), *frame how many registers a run needs. Literals of one kind
 * and payload, bit for bit, share a slot, so no two constants are equal; what stood in the slots before the call is not read. Refused: the number is
 * vosemaqe_check's, or the first of 5, 6, 7 in the order of emission; all of code, slot_kinds, slot_payloads and the cells are zero. */
uint8_t vosemaqe_compile(const uint64_t *nodes, uint64_t nodes_len, uint64_t params, uint64_t locals, uint64_t dest,
    uint64_t *code, uint64_t code_len, uint8_t *slot_kinds, uint64_t slot_kinds_len, uint64_t *slot_payloads, uint64_t slot_payloads_len,
    uint64_t *words, uint64_t *slots, uint64_t *reg, uint64_t *frame);

/* The same with a lent jump list in place of the one that vosemaqe_compile has on its stack (up to 256 KiB): 7 where it runs out. All of `jumps` is left
 * zero. Lend VOSEMAQE_JUMPS_FOR the table, static memory for instance, where the stack is small. */
uint8_t vosemaqe_compile_with(const uint64_t *nodes, uint64_t nodes_len, uint64_t params, uint64_t locals, uint64_t dest,
    uint64_t *code, uint64_t code_len, uint8_t *slot_kinds, uint64_t slot_kinds_len, uint64_t *slot_payloads, uint64_t slot_payloads_len,
    uint64_t *jumps, uint64_t jumps_len, uint64_t *words, uint64_t *slots, uint64_t *reg, uint64_t *frame);

/* The value of a table on its locals, by its tree and not by its words. Checked in this order: the table and the layout; 26 if fewer pairs than the base
 * are lent; 29 if one of the first base pairs is ill-formed; then the first of 20 to 24 that the expression meets. Writes only the two cells. */
uint8_t vosemaqe_evaluate(const uint64_t *nodes, uint64_t nodes_len, uint64_t params, uint64_t locals,
    const uint8_t *kinds, uint64_t kinds_len, const uint64_t *payloads, uint64_t payloads_len, uint64_t *kind, uint64_t *payload);

/* Runs words from `start` (0 for a compiled expression) until the position equals the length, on registers and slots lent as pairs, at most `budget` steps.
 * Before the first step: 26 for a start past the length (at that position), 29 for an ill-formed register or slot (at position 0); 0 steps, registers
 * unchanged. At each step, in this order: the end, 25, 10, 27 or 28, 26 for a register or a slot, the operation's 20 to 24, 26 for a taken target.
 * *steps is the number of steps taken, *position the stopping word's, or the length when done. A stopping step is not counted and writes nothing.
 * A compiled expression takes at most as many steps as it has words. */
uint8_t vosemaqe_run(const uint64_t *words, uint64_t words_len, uint64_t start,
    uint8_t *kinds, uint64_t kinds_len, uint64_t *payloads, uint64_t payloads_len,
    const uint8_t *slot_kinds, uint64_t slot_kinds_len, const uint64_t *slot_payloads, uint64_t slot_payloads_len,
    uint64_t budget, uint64_t *steps, uint64_t *position);

/* Runs the words of a store from `entry` up to `end`, from their first on; *position counts from the entry. 26 at the entry given, with 0 steps and
 * registers unchanged, if the entry is past the end or the end past the store. */
uint8_t vosemaqe_run_part(const uint64_t *store, uint64_t store_len, uint64_t entry, uint64_t end,
    uint8_t *kinds, uint64_t kinds_len, uint64_t *payloads, uint64_t payloads_len,
    const uint8_t *slot_kinds, uint64_t slot_kinds_len, const uint64_t *slot_payloads, uint64_t slot_payloads_len,
    uint64_t budget, uint64_t *steps, uint64_t *position);

/* The opcode and the operands of a word in declared order, zero in those that it lacks; a signed one is two's complement of 64 bits. 10, and all zero, if
 * the word does not decode: an unknown opcode, a bit above the fields, an immediate that is no value's. */
uint8_t vosemaqe_decode(uint64_t word, uint64_t *opcode, uint64_t *a, uint64_t *b, uint64_t *c, uint64_t *d, uint64_t *e);

/* The word of an opcode and its operands, the inverse of vosemaqe_decode: 9, and a zero word, if an operand does not fit its field, one that the opcode
 * lacks is not 0, or the opcode is over 76. */
uint8_t vosemaqe_encode(uint64_t opcode, uint64_t a, uint64_t b, uint64_t c, uint64_t d, uint64_t e, uint64_t *word);

/* Aims the branch at position `at` at a target, which is any number. Checked in this order: 12, 10, 11, 8. Changes one word when done, else none. */
uint8_t vosemaqe_patch(uint64_t *words, uint64_t words_len, uint64_t at, uint64_t target);

#ifdef __cplusplus
}
#endif
#endif
