/* Feed energy back when the DC-link voltage is above its limit and braking is requested: evaluated and run, by the installed package alone. */
#include <stdio.h>
#include <string.h>
#include <vosemaqe.h>

int main(void) {
    /* kind and payload of each node; vosemaqe_complete fills in first and depth */
    uint64_t table[] = {
        VOSEMAQE_NODE_REF, 0, 0, 0, /* voltage */
        VOSEMAQE_NODE_REF, 1, 0, 0, /* limit */
        VOSEMAQE_NODE_GT, 0, 0, 0,
        VOSEMAQE_NODE_REF, 2, 0, 0, /* braking */
        VOSEMAQE_NODE_AND, 0, 0, 0};
    enum { LENGTH = sizeof table / sizeof *table, NODES = LENGTH / VOSEMAQE_NODE_WORDS, ROOM = VOSEMAQE_WORDS_FOR(NODES), SLOTS = VOSEMAQE_SLOTS_FOR(NODES) };
    enum { REGISTERS = 8 };
    uint64_t code[ROOM], slot_payloads[SLOTS], words, slots, reg, frame, steps, position, kind, payload;
    uint8_t slot_kinds[SLOTS];
    uint8_t kinds[REGISTERS] = {VOSEMAQE_FLOAT, VOSEMAQE_FLOAT, VOSEMAQE_BOOL};
    uint64_t payloads[REGISTERS] = {0, 0, 1};
    const double volts[2] = {812.5, 750};
    memcpy(payloads, volts, sizeof volts);

    if (vosemaqe_version() != VOSEMAQE_VERSION) return 2;
    vosemaqe_complete(table, LENGTH);
    if (vosemaqe_compile(table, LENGTH, 0, 3, 0, code, ROOM, slot_kinds, SLOTS, slot_payloads, SLOTS, &words, &slots, &reg, &frame)) return 3;
    if (frame > REGISTERS) return 4;
    if (vosemaqe_evaluate(table, LENGTH, 0, 3, kinds, 3, payloads, 3, &kind, &payload)) return 5;
    if (vosemaqe_run(code, words, 0, kinds, REGISTERS, payloads, REGISTERS, slot_kinds, slots, slot_payloads, slots, words, &steps, &position)) return 6;
    if (kinds[reg] != kind || payloads[reg] != payload) return 7;
    printf("version %d, %d words, %d steps: %s\n", VOSEMAQE_VERSION, (int)words, (int)steps, payload ? "feed back" : "wait");
    return 0;
}
