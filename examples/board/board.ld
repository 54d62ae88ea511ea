/*
 * A board with 256 KiB of flash and 64 KiB of RAM. The stack grows down from
 * the end of RAM towards the program's own data. The link fails where less is
 * left for it than a stage check takes with the program's own frames.
 */
ENTRY(board_reset)

MEMORY
{
    FLASH (rx) : ORIGIN = 0x00000000, LENGTH = 256K
    RAM (rwx) : ORIGIN = 0x20000000, LENGTH = 64K
}

SECTIONS
{
    .text : { KEEP(*(.vectors)) *(.text .text.*) *(.rodata .rodata.*) } > FLASH
    .ARM.exidx : { *(.ARM.exidx*) } > FLASH
    .data : ALIGN(8) { board_data = .; *(.data .data.*) . = ALIGN(8); board_data_end = .; } > RAM AT > FLASH
    board_data_stored = LOADADDR(.data);
    .bss (NOLOAD) : ALIGN(8) { *(.bss .bss.* COMMON) . = ALIGN(8); board_free = .; } > RAM
    board_ram = ORIGIN(RAM);
    board_stack_top = ORIGIN(RAM) + LENGTH(RAM);
    ASSERT(board_stack_top - board_free >= 4096, "less than 4 KiB of RAM is left for the stack")
}
