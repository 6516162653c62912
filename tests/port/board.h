/* What a test program needs of the machine that it runs on. A board (cortex_m.c, aarch64.c, rv32.c, hosted.c, the wasm runner) has put and on_stack and calls
   test; it ends the program when test returns. Nothing of a C library is used, so that one source runs on a bare chip. */
#ifndef BOARD_H
#define BOARD_H
#include <stdint.h>

void put(const char *text);

/* Calls `call` with the stack pointer at `top`, a multiple of 16. */
void on_stack(void *top, void (*call)(void));

int test(void); /* 0 where all is well */

static inline void put_number(uint32_t n) {
    char text[11];
    int at = 10;
    text[at] = 0;
    do { text[--at] = (char)('0' + n % 10); n /= 10; } while (n);
    put(text + at);
}

static inline void put_bits(uint64_t bits) {
    char text[17];
    for (int i = 0; i < 16; i++) text[i] = "0123456789abcdef"[bits >> (60 - 4 * i) & 15];
    text[16] = 0;
    put(text);
}

#endif
