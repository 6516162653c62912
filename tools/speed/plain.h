/* The machine to measure against. Its answers to the words measured are held to the proved machine's. */
#include <stddef.h>
#include <stdint.h>
struct ran { uint8_t number; uint64_t steps; size_t position; };
struct ran plain_run(const uint64_t *words, size_t len, size_t start, uint8_t *kinds, size_t nk, uint64_t *payloads, size_t np,
    const uint8_t *skinds, size_t nsk, const uint64_t *spayloads, size_t nsp, uint64_t budget);
