/* A test program on a bare 64-bit Arm core, at EL1 with the MMU off and alignment checked; output by semihosting. */
#include "board.h"

enum { SYS_WRITE0 = 4, SYS_EXIT = 0x18, EXIT_WELL = 0x20026 };

static void request(uint64_t what, uintptr_t with) {
    register uint64_t x0 __asm__("x0") = what;
    register uintptr_t x1 __asm__("x1") = with;
    __asm__ volatile("hlt 0xf000" : "+r"(x0) : "r"(x1) : "memory");
}

void put(const char *text) { request(SYS_WRITE0, (uintptr_t)text); }

static void leave(uint64_t status) {
    uint64_t block[2] = {EXIT_WELL, status};
    request(SYS_EXIT, (uintptr_t)block);
    for (;;) {}
}

__attribute__((used)) static void begin(void) { leave((uint64_t)test()); }

__attribute__((used)) static void fault(void) {
    put("FAULT\n");
    leave(1);
}

/* CPACR_EL1.FPEN lets floats be used; SCTLR_EL1.A makes an unaligned access a fault. All sixteen vectors, 128 bytes apart, go to one place. */
__asm__(".section .text.start, \"ax\"\n.global start\nstart:\n"
        "    ldr x0, =stack_top\n mov sp, x0\n"
        "    mov x0, #(3 << 20)\n msr cpacr_el1, x0\n"
        "    mrs x0, sctlr_el1\n orr x0, x0, #2\n msr sctlr_el1, x0\n"
        "    adr x0, vectors\n msr vbar_el1, x0\n isb\n b begin\n"
        ".balign 2048\nvectors:\n.rept 16\n b fault\n .balign 128\n.endr\n"
        ".section .text.on_stack, \"ax\"\n.global on_stack\non_stack:\n"
        "    stp x29, x30, [sp, #-32]!\n str x19, [sp, #16]\n mov x19, sp\n mov sp, x0\n blr x1\n mov sp, x19\n ldr x19, [sp, #16]\n"
        "    ldp x29, x30, [sp], #32\n ret\n");
