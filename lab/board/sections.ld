/* Where the parts of a program go: code and constants, then data, and the stack from the top of the
 * memory down. start.c copies data and clears bss. The heap, if there is one, starts at end. */
ENTRY(reset)

SECTIONS
{
    .text : { KEEP(*(.vectors)) *(.text*) *(.rodata* .srodata*) . = ALIGN(8); } > CODE
    .data : { data_start = .; *(.data* .sdata*) . = ALIGN(8); data_end = .; } > RAM AT > CODE
    data_kept = LOADADDR(.data);
    .bss (NOLOAD) : { bss_start = .; *(.bss* .sbss* COMMON) . = ALIGN(8); bss_end = .; } > RAM
    end = bss_end;
    stack_top = ORIGIN(RAM) + LENGTH(RAM);
    /DISCARD/ : { *(.ARM.exidx* .ARM.extab* .eh_frame* .comment) }
}
