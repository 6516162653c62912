/* The two functions of a C library that the archive calls, for a chip without one. */
#include <stddef.h>

/* byte by byte and through volatile: a compiler that knows the loop would make it a call of itself */
void *memset(void *to, int c, size_t n) {
    volatile unsigned char *p = to;
    while (n--) *p++ = (unsigned char)c;
    return to;
}

void *memcpy(void *restrict to, const void *restrict from, size_t n) {
    volatile unsigned char *p = to;
    const unsigned char *q = from;
    while (n--) *p++ = *q++;
    return to;
}
