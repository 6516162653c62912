/* A chip with 256 KiB of flash and 32 KiB of RAM. The stack lies at the bottom of the RAM, so that one that runs out faults and overwrites nothing.
   stack_bytes: docs/STACK.md's reserve for compile_with on a Cortex-M4 at the expression's depth, 3, with room for main. */
MEMORY {
    FLASH (rx) : ORIGIN = 0, LENGTH = 256K
    RAM (rw) : ORIGIN = 0x20000000, LENGTH = 32K
}
stack_bytes = DEFINED(stack_bytes) ? stack_bytes : 4K;
SECTIONS {
    .text : { KEEP(*(.vectors)) *(.text*) *(.rodata*) } >FLASH
    .ARM.exidx : { *(.ARM.exidx*) } >FLASH
    .stack (NOLOAD) : { . += stack_bytes; . = ALIGN(8); stack_top = .; } >RAM
    .data : { data_start = .; *(.data*) . = ALIGN(4); data_end = .; } >RAM AT>FLASH
    data_from = LOADADDR(.data);
    .bss (NOLOAD) : { bss_start = .; *(.bss*) *(COMMON) . = ALIGN(4); bss_end = .; } >RAM
}
