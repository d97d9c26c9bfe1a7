/* The memory of the emulated board virt. */
MEMORY {
    RAM (rwx) : ORIGIN = 0x80000000, LENGTH = 16M
}
ENTRY(start)
SECTIONS {
    .text : { KEEP(*(.start)) *(.text .text.*) } > RAM
    .rodata : { *(.rodata .rodata.* .srodata .srodata.*) } > RAM
    .data : { *(.data .data.* .sdata .sdata.*) } > RAM
    .bss (NOLOAD) : { . = ALIGN(4); bss_low = .; *(.bss .bss.* .sbss .sbss.* COMMON) . = ALIGN(4); bss_high = .; } > RAM
    stack_top = ORIGIN(RAM) + LENGTH(RAM);
    /DISCARD/ : { *(.comment) *(.eh_frame*) }
}
