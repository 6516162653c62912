/* The emulator's boards: code from 0, RAM from 0x20000000. It loads .data where it belongs and clears the RAM. */
MEMORY {
    CODE : ORIGIN = 0, LENGTH = 4M
    RAM : ORIGIN = 0x20000000, LENGTH = 4M
}
SECTIONS {
    .text : { KEEP(*(.vectors)) *(.text*) *(.rodata*) } >CODE
    .ARM.exidx : { *(.ARM.exidx*) } >CODE
    .data : { *(.data*) } >RAM
    .bss (NOLOAD) : { *(.bss*) *(COMMON) } >RAM
    stack_top = ORIGIN(RAM) + LENGTH(RAM);
}
