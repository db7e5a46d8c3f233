/* The board "virt": everything in RAM, from BASE (given to the linker) on; a stack of 1 MB at the end. */
ENTRY(_start)
SECTIONS {
    . = BASE;
    .text : { KEEP(*(.start)) *(.text*) *(.rodata*) *(.srodata*) }
    . = ALIGN(4096);
    .data : { *(.data*) *(.sdata*) *(.got*) }
    .bss : { *(.bss*) *(.sbss*) *(COMMON) }
    . = ALIGN(16);
    . = . + 1M;
    stack_top = .;
    /DISCARD/ : { *(.comment) *(.note*) *(.eh_frame*) }
}
