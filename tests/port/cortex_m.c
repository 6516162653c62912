/* A test program on a bare Cortex-M: vectors, the float unit, and output by semihosting (a breakpoint that the emulator takes for a request). */
#include "board.h"

extern uint32_t stack_top[];
enum { SYS_WRITE0 = 4, SYS_EXIT = 0x18, EXIT_WELL = 0x20026, EXIT_ERROR = 0x20023 };

static void request(uint32_t what, uintptr_t with) {
    register uint32_t r0 __asm__("r0") = what;
    register uintptr_t r1 __asm__("r1") = with;
    __asm__ volatile("bkpt 0xab" : "+r"(r0) : "r"(r1) : "memory");
}

void put(const char *text) { request(SYS_WRITE0, (uintptr_t)text); }

__attribute__((naked)) void on_stack(void *top, void (*call)(void)) {
    (void)top, (void)call;
    __asm__ volatile("push {r4, lr}\n mov r4, sp\n mov sp, r0\n blx r1\n mov sp, r4\n pop {r4, pc}");
}

static void reset(void) {
#if __ARM_ARCH >= 7
    *(volatile uint32_t *)0xE000ED88 |= 0xFu << 20; /* CPACR: the float unit, if there is one */
    *(volatile uint32_t *)0xE000ED14 |= 1u << 3;    /* CCR.UNALIGN_TRP: the archive makes no unaligned access */
    __asm__ volatile("dsb\n isb");
#endif
    request(SYS_EXIT, test() ? EXIT_ERROR : EXIT_WELL);
    for (;;) {}
}

static void fault(void) {
    put("FAULT\n");
    request(SYS_EXIT, EXIT_ERROR);
    for (;;) {}
}

__attribute__((section(".vectors"), used)) static void (*const vectors[16])(void) = {
    (void (*)(void))stack_top, reset, fault, fault, fault, fault, fault, fault, fault, fault, fault, fault, fault, fault, fault, fault};
