/* The memory of the emulated board mps2-an385: flash and RAM of a small chip, and for what is kept a part of RAM that no start clears. */
MEMORY {
    FLASH (rx) : ORIGIN = 0, LENGTH = 128K
    GIVEN (rw) : ORIGIN = 0x20000000, LENGTH = 16
    RAM (rw) : ORIGIN = 0x20000010, LENGTH = 32K - 16
    KEPT (rw) : ORIGIN = 0x21000000, LENGTH = 20K
}
ENTRY(reset)
SECTIONS {
    .text : { KEEP(*(.vectors)) *(.text .text.*) } > FLASH
    .rodata : { *(.rodata .rodata.*) } > FLASH
    .data : { *(.data .data.*) } > RAM
    .bss (NOLOAD) : {
        . = ALIGN(4);
        bss_low = .;
        *(.bss .bss.* COMMON)
        . = ALIGN(4);
        bss_top = .;
    } > RAM
    given_pace = ORIGIN(GIVEN);
    kept_here = ORIGIN(KEPT);
    stack_low = ALIGN(8);
    stack_top = ORIGIN(RAM) + LENGTH(RAM);
    /DISCARD/ : { *(.ARM.exidx*) *(.comment) }
}
ASSERT(SIZEOF(.data) == 0, "the start file copies no data to RAM")
ASSERT(stack_top - stack_low >= 8K, "there is too little room for the stack")
