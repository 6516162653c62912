/* What stands between a Cortex-M's reset and main. A drive's own start-up does as much; put and the end of the program are the emulator's (semihosting). */
#include <stdint.h>

extern uint32_t stack_top[], data_from[], data_start[], data_end[], bss_start[], bss_end[];
int main(void);

static void request(uint32_t what, uintptr_t with) {
    register uint32_t r0 __asm__("r0") = what;
    register uintptr_t r1 __asm__("r1") = with;
    __asm__ volatile("bkpt 0xab" : "+r"(r0) : "r"(r1) : "memory");
}
enum { SYS_WRITE0 = 4, SYS_EXIT = 0x18, EXIT_WELL = 0x20026, EXIT_ERROR = 0x20023 };

void put(const char *text) { request(SYS_WRITE0, (uintptr_t)text); }

static void leave(int status) {
    request(SYS_EXIT, status ? EXIT_ERROR : EXIT_WELL);
    for (;;) {}
}

static void reset(void) {
    /* CPACR: the float unit is off after a reset. FPSCR starts as the library wants it: to nearest, subnormal numbers kept. */
    *(volatile uint32_t *)0xE000ED88 |= 0xFu << 20;
    /* MPU: nothing below the RAM, where the stack ends, may be touched (region 0: from 0x1FFF0000, 64 KiB, no access); the rest stays as it is. */
    *(volatile uint32_t *)0xE000ED98 = 0;
    *(volatile uint32_t *)0xE000ED9C = 0x1FFF0000;
    *(volatile uint32_t *)0xE000EDA0 = 15u << 1 | 1;
    *(volatile uint32_t *)0xE000ED94 = 5;
    __asm__ volatile("dsb\n isb");
    for (volatile uint32_t *to = data_start, *from = data_from; to < data_end;) *to++ = *from++;
    for (volatile uint32_t *to = bss_start; to < bss_end;) *to++ = 0;
    leave(main());
}

/* Also where the stack runs out: it lies at the bottom of the RAM (chip.ld), and below it is nothing to write to. Its own stack is the top of that one again,
   since what was there is lost anyway. */
__attribute__((used)) static void stopped(void) {
    put("FAULT\n");
    leave(1);
}
__attribute__((naked)) static void fault(void) { __asm__ volatile("ldr r0, =stack_top\n mov sp, r0\n b stopped"); }

__attribute__((section(".vectors"), used)) static void (*const vectors[16])(void) = {
    (void (*)(void))stack_top, reset, fault, fault, fault, fault, fault, fault, fault, fault, fault, fault, fault, fault, fault, fault};
