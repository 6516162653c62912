/* A test program on a 32-bit RISC-V core as the emulator of Linux programs has it: output and end by system calls, and a stack of its own. */
#include "board.h"

enum { WRITE = 64, EXIT = 93 };
__attribute__((aligned(16), used)) static unsigned char stack[2 << 20];
__attribute__((used)) static const uint32_t stack_bytes = sizeof stack;

static long request(long what, long a, long b, long c) {
    register long a7 __asm__("a7") = what;
    register long a0 __asm__("a0") = a;
    register long a1 __asm__("a1") = b;
    register long a2 __asm__("a2") = c;
    __asm__ volatile("ecall" : "+r"(a0) : "r"(a7), "r"(a1), "r"(a2) : "memory");
    return a0;
}

void put(const char *text) {
    long n = 0;
    while (text[n]) n++;
    request(WRITE, 1, (long)text, n);
}

__attribute__((used)) static void begin(void) {
    request(EXIT, test(), 0, 0);
    for (;;) {}
}

__asm__(".section .text.start, \"ax\"\n.global _start\n_start:\n"
        ".option push\n.option norelax\n la gp, __global_pointer$\n.option pop\n" /* which the linker's short addresses are counted from */
        "    la sp, stack\n lw t0, stack_bytes\n add sp, sp, t0\n j begin\n"
        ".section .text.on_stack, \"ax\"\n.global on_stack\non_stack:\n"
        "    addi sp, sp, -16\n sw ra, 12(sp)\n sw s0, 8(sp)\n mv s0, sp\n mv sp, a0\n jalr a1\n mv sp, s0\n lw ra, 12(sp)\n lw s0, 8(sp)\n"
        "    addi sp, sp, 16\n ret\n");
