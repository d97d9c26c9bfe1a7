/* The memory of the emulated board mps2-an385: what would be flash from 0 on, and what is written to from 0x20000000 on. */
MEMORY {
    FLASH (rx) : ORIGIN = 0, LENGTH = 4M
    RAM (rw) : ORIGIN = 0x20000000, LENGTH = 256K
}
ENTRY(reset)
SECTIONS {
    .text : { KEEP(*(.vectors)) *(.text .text.*) } > FLASH
    .rodata : { *(.rodata .rodata.*) } > FLASH
    .data : { *(.data .data.*) } > RAM
    .bss (NOLOAD) : { *(.bss .bss.* COMMON) } > RAM
    stack_low = ALIGN(8);
    stack_top = ORIGIN(RAM) + LENGTH(RAM);
    /DISCARD/ : { *(.ARM.exidx*) *(.comment) }
}
ASSERT(SIZEOF(.data) == 0, "the start file copies no data to RAM")
