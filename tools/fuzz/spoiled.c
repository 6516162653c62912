/* Three spoiled functions around the proved ones, which are renamed: what the driver has to see. */
#include "vosemaqe.h"
#if SPOILED == 1 /* a step too many where a shift amount stops the run */
uint8_t inner(const uint64_t *, size_t, size_t, uint8_t *, size_t, uint64_t *, size_t, const uint8_t *, size_t, const uint64_t *, size_t, uint64_t, uint64_t *, uint64_t *);
uint8_t vosemaqe_run(const uint64_t *w, size_t n, size_t at, uint8_t *k, size_t kn, uint64_t *p, size_t pn, const uint8_t *sk, size_t skn, const uint64_t *sp, size_t spn,
    uint64_t budget, uint64_t *steps, uint64_t *position) {
    uint8_t r = inner(w, n, at, k, kn, p, pn, sk, skn, sp, spn, budget, steps, position);
    if (r == VOSEMAQE_BAD_SHIFT) *steps += 1;
    return r;
}
#else
uint8_t inner(uint64_t *, size_t, size_t, uint64_t);
uint8_t vosemaqe_patch(uint64_t *words, size_t n, size_t at, uint64_t target) {
    uint8_t r = inner(words, n, at, target);
#if SPOILED == 2 /* one word past the end is read */
    if (r == 0) (void)((volatile uint64_t *)words)[n];
#else /* one byte before the first is written */
    if (r == VOSEMAQE_TOO_FAR) ((uint8_t *)words)[-1] = 0;
#endif
    return r;
}
#endif
