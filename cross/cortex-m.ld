/* A Cortex-M of the MPS2 board: 4 MB for code and stored data at 0, 4 MB for the rest and the stack at 0x20000000. */
ENTRY(start)
MEMORY {
    CODE (rx) : ORIGIN = 0x00000000, LENGTH = 4M
    DATA (rw) : ORIGIN = 0x20000000, LENGTH = 4M
}
SECTIONS {
    .text : { KEEP(*(.start)) *(.text*) *(.rodata*) } > CODE
    .ARM.exidx : { *(.ARM.exidx*) } > CODE
    .data : { *(.data*) } > DATA
    .bss : { *(.bss*) *(COMMON) } > DATA
    stack_top = 0x20000000 + 4M;
    /DISCARD/ : { *(.comment) *(.note*) }
}
