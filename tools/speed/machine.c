/* Times the proved machine against the plain one in one process, in short turns, and prints the best nanoseconds a step and their ratio.
   Both must leave the same answer and the same registers. An argument is the number of turns. */
#include "plain.h"
#include "vosemaqe.h"
#include <stdio.h>
#include <stdlib.h>
#include <string.h>
#include <time.h>

#define W(op, a, b, c) ((uint64_t)(op) | (uint64_t)(a) << 8 | (uint64_t)(b) << 24 | (uint64_t)(c) << 40)
#define IMM40(d, raw) (3ull | (uint64_t)(d) << 8 | (uint64_t)(raw) << 24)
#define JMP(z) (65ull | (uint64_t)(uint32_t)(z) << 8)
#define F(x) pattern(x)
static uint64_t pattern(double x) { uint64_t p; memcpy(&p, &x, 8); return p; }

enum { REGS = 6 };
struct job { const char *name; int count; uint64_t words[8]; uint8_t kinds[REGS]; uint64_t payloads[REGS]; uint64_t budget; long runs; };

static double now(void) { struct timespec t; clock_gettime(CLOCK_MONOTONIC, &t); return t.tv_sec + t.tv_nsec * 1e-9; }

static double turn(const struct job *j, int plain, uint8_t *kinds, uint64_t *payloads, uint64_t *report) {
    const uint8_t sk[1] = {3}; const uint64_t sp[1] = {0x3ff8000000000000ull};
    double t = now(), steps = 0;
    for (long i = 0; i < j->runs; i++) {
        memcpy(kinds, j->kinds, REGS); memcpy(payloads, j->payloads, sizeof j->payloads);
        if (plain) {
            struct ran r = plain_run(j->words, j->count, 0, kinds, REGS, payloads, REGS, sk, 1, sp, 1, j->budget);
            report[0] = r.number; report[1] = r.steps; report[2] = r.position;
        } else report[0] = vosemaqe_run(j->words, j->count, 0, kinds, REGS, payloads, REGS, sk, 1, sp, 1, j->budget, report + 1, report + 2);
        steps += report[1];
    }
    return (now() - t) * 1e9 / steps;
}

/* Called after each row, so that what was counted of it can be written down. */
__attribute__((noinline)) void row(void) { __asm__ volatile(""); }

int main(int argc, char **argv) {
    const int turns = argc > 1 ? atoi(argv[1]) : 400;
    struct job jobs[] = {
        {"loop of six", 6, {W(23, 0, 0, 1), W(18, 1, 1, 2), W(4, 3, 1, 0), W(57, 4, 100, 0), W(4, 5, 0, 0), JMP(-6)},
            {2, 3, 3, 0, 2, 0}, {0, F(1.0), F(1.5), 0, 7, 0}, 100000, 1},
        {"a + 5", 1, {5497558139159ull}, {2}, {7}, 100, 10000},
        {"a + 32768", 2, {IMM40(1, 131072), W(18, 1, 0, 1)}, {2}, {7}, 100, 10000},
        {"a < b ? 1 : 2, Ints", 4, {0x0000020001000033ull, 0x04000203ull, 0x141ull, 0x08000203ull}, {2, 2}, {3, 4}, 100, 10000},
        {"a < b ? 1 : 2, Floats", 4, {0x0000020001000033ull, 0x04000203ull, 0x141ull, 0x08000203ull}, {3, 3}, {F(3), F(2)}, 100, 10000},
        {"a & 0xFF0", 1, {W(16, 1, 0, 4 | 8 << 6)}, {2}, {0xabcdef}, 100, 10000},
        {"a << 3", 1, {W(14, 1, 0, 3)}, {2}, {77}, 100, 10000},
        {"a * b - a, Ints", 2, {W(20, 2, 0, 1), W(19, 2, 2, 0)}, {2, 2}, {123456, 789}, 100, 10000},
        {"a / b, Floats", 1, {W(21, 2, 0, 1)}, {3, 3}, {F(3), F(7)}, 100, 10000},
        {"a + 5, on a Float", 1, {5497558139159ull}, {3}, {F(7)}, 100, 10000},
        {"a < 5 ? 1 : 2, on a Float", 4, {W(61, 0, 5, 2), 0x04000203ull, 0x141ull, 0x08000203ull}, {3}, {F(7)}, 100, 10000},
        {"a + b, Int and Float", 1, {W(18, 2, 0, 1)}, {2, 3}, {7, F(0.5)}, 100, 10000},
        {"a / b, Ints", 1, {W(21, 2, 0, 1)}, {2, 2}, {7, 3}, 100, 10000},
        {"!a", 1, {W(26, 2, 0, 0)}, {1}, {1}, 100, 10000},
        {"a == b ? 1 : 2, Bools", 4, {W(46, 0, 1, 2), 0x04000203ull, 0x141ull, 0x08000203ull}, {1, 1}, {1, 1}, 100, 10000},
        {"a == b ? 1 : 2, Ints", 4, {W(46, 0, 1, 2), 0x04000203ull, 0x141ull, 0x08000203ull}, {2, 2}, {7, 7}, 100, 10000},
        {"a == 5 ? 1 : 2, on a Float", 4, {W(56, 0, 5, 2), 0x04000203ull, 0x141ull, 0x08000203ull}, {3}, {F(5)}, 100, 10000},
        {"a < b ? 1 : 2, wide Int, Float", 4, {0x0000020001000033ull, 0x04000203ull, 0x141ull, 0x08000203ull}, {2, 3}, {(1ull << 60) + 1, F(0x1p60)}, 100, 10000},
        {"a < b ? 1 : 2, Float, wide Int", 4, {0x0000020001000033ull, 0x04000203ull, 0x141ull, 0x08000203ull}, {3, 2}, {F(0.5), 1ull << 62}, 100, 10000},
        {"a == b ? 1 : 2, wide Int, inf", 4, {W(46, 0, 1, 2), 0x04000203ull, 0x141ull, 0x08000203ull}, {2, 3}, {1ull << 62, 0x7ff0000000000000ull}, 100, 10000},
        {"a >> 3 & 0xFF0", 1, {W(17, 1, 0, 3 | 4 << 6 | 8 << 12)}, {2}, {0xabcdef}, 100, 10000},
        {"slot, mov", 2, {5ull | 1ull << 8, W(4, 2, 1, 0)}, {2}, {7}, 100, 10000},
    };
    int bad = 0;
    printf("%-31s %8s %8s %6s\n", "ns a step", "proved", "plain", "ratio");
    for (size_t i = 0; i < sizeof jobs / sizeof *jobs; i++) {
        uint8_t k[2][REGS]; uint64_t p[2][REGS], r[2][3]; double best[2] = {1e9, 1e9};
        for (int n = 0; n < turns; n++)
            for (int plain = 0; plain < 2; plain++) {
                double t = turn(&jobs[i], plain, k[plain], p[plain], r[plain]);
                if (t < best[plain]) best[plain] = t;
            }
        if (memcmp(r[0], r[1], sizeof *r) || memcmp(k[0], k[1], REGS) || memcmp(p[0], p[1], sizeof *p)) { printf("%s: the two differ\n", jobs[i].name); bad = 1; }
        printf("%-31s %8.2f %8.2f %6.2f\n", jobs[i].name, best[0], best[1], best[0] / best[1]);
        row();
    }
    return bad;
}
