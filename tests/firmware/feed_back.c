/* A firmware that compiles one expression when it starts and runs it in every control cycle: feed energy back when the DC-link voltage is above its limit and
   braking is requested. All memory is its own and counted when it is linked: 5 nodes, no heap. */
#include "vosemaqe.h"

void put(const char *text); /* start.c */

/* kind and payload of each node; vosemaqe_complete fills in first and depth */
static uint64_t table[] = {
    VOSEMAQE_NODE_REF, 0, 0, 0, /* voltage */
    VOSEMAQE_NODE_REF, 1, 0, 0, /* limit */
    VOSEMAQE_NODE_GT, 0, 0, 0,
    VOSEMAQE_NODE_REF, 2, 0, 0, /* braking */
    VOSEMAQE_NODE_AND, 0, 0, 0};
enum { LENGTH = sizeof table / sizeof *table, NODES = LENGTH / VOSEMAQE_NODE_WORDS, LOCALS = 3, REGISTERS = 8 };
enum { WORDS = VOSEMAQE_WORDS_FOR(NODES), SLOTS = VOSEMAQE_SLOTS_FOR(NODES), JUMPS = VOSEMAQE_JUMPS_FOR(NODES) };

static uint64_t code[WORDS], slot_payloads[SLOTS], words, slots, reg, frame;
static uint8_t slot_kinds[SLOTS];

/* Once. 0, or the number that says why not. */
static uint8_t prepare(void) {
    static uint64_t jumps[JUMPS];
    if (vosemaqe_version() != VOSEMAQE_VERSION) return 255;
    vosemaqe_complete(table, LENGTH);
    uint8_t number = vosemaqe_compile_with(table, LENGTH, 0, LOCALS, 0, code, WORDS, slot_kinds, SLOTS, slot_payloads, SLOTS, jumps, JUMPS,
        &words, &slots, &reg, &frame);
    return number == VOSEMAQE_DONE && frame > REGISTERS ? VOSEMAQE_NO_REGISTER : number;
}

static uint64_t bits_of(double number) {
    union { double number; uint64_t bits; } both = {number};
    return both.bits;
}

/* In every cycle: 1 to feed back. Where the run gives no Bool the answer is 0, which leaves the energy where it is. */
static int feed_back(double volts, double limit, int braking) {
    uint8_t kinds[REGISTERS] = {VOSEMAQE_FLOAT, VOSEMAQE_FLOAT, VOSEMAQE_BOOL};
    uint64_t payloads[REGISTERS] = {bits_of(volts), bits_of(limit), braking != 0}, steps, position;
    uint8_t number = vosemaqe_run(code, words, 0, kinds, REGISTERS, payloads, REGISTERS, slot_kinds, slots, slot_payloads, slots, words, &steps, &position);
    return number == VOSEMAQE_DONE && kinds[reg] == VOSEMAQE_BOOL && payloads[reg] == 1;
}

int main(void) {
    /* above the limit; below it; no braking; a dead sensor */
    static const struct { double volts; int braking; } cycles[] = {{812.5, 1}, {700, 1}, {812.5, 0}, {__builtin_nan(""), 1}};
    if (prepare() != VOSEMAQE_DONE) return 1;
    put("firmware: feed back");
    for (unsigned i = 0; i < sizeof cycles / sizeof *cycles; i++) put(feed_back(cycles[i].volts, 750, cycles[i].braking) ? " 1" : " 0");
    put("\n");
    return 0;
}
