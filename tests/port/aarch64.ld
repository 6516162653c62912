/* The emulator's board 'virt'. It loads .data where it belongs and clears the RAM. */
ENTRY(start)
MEMORY { RAM : ORIGIN = 0x40100000, LENGTH = 8M }
SECTIONS {
    .text : { *(.text.start) *(.text*) *(.rodata*) } >RAM
    .data : { *(.data*) } >RAM
    .bss (NOLOAD) : { *(.bss*) *(COMMON) } >RAM
    stack_top = ORIGIN(RAM) + LENGTH(RAM);
}
