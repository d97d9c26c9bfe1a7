/* The memory of the emulated boards mps2-an385 and mps2-an386: what would be flash from 0 on, and all that is written to from 0x20000000 on. */
MEMORY {
    FLASH (rx) : ORIGIN = 0, LENGTH = 4M
    RAM (rw) : ORIGIN = 0x20000000, LENGTH = 4M
}
SECTIONS {
    .text : { KEEP(*(.vectors)) *(.text .text.*) } > FLASH
    .rodata : { *(.rodata .rodata.*) } > FLASH
    .data : { *(.data .data.*) } > RAM
    .bss (NOLOAD) : { bss_low = .; *(.bss .bss.* COMMON) . = ALIGN(4); bss_high = .; } > RAM
    stack_top = ORIGIN(RAM) + LENGTH(RAM);
    /DISCARD/ : { *(.ARM.exidx*) *(.comment) }
}
ASSERT(SIZEOF(.data) == 0, "the start file copies no data to RAM")
