/* Lays a program out for the simulator: text from 0x10000, data from 0x100000.
 * Text pages are readable and executable, data pages readable and writable, so
 * constants may stand in either; here they go to the data.
 *
 * The stack comes first in the data and grows down. Nothing is mapped below it,
 * so a program that overflows its stack stops with cause 7 and spoils no data.
 */
OUTPUT_ARCH(riscv)
ENTRY(_start)

STACK_SIZE = 0x10000; /* 64 KiB, 16 of the 256 pages */

PHDRS
{
    text PT_LOAD FLAGS(5);
    stack PT_LOAD FLAGS(6);
    data PT_LOAD FLAGS(6);
}

SECTIONS
{
    . = 0x10000;
    .text : {
        *(.text.start)
        *(.text .text.*)
    } :text

    . = 0x100000;
    .stack (NOLOAD) : {
        . += STACK_SIZE;
        stack_end = .;
    } :stack
    .data : {
        *(.rodata .rodata.* .srodata .srodata.*)
        *(.data .data.* .sdata .sdata.*)
        . = ALIGN(16);
    } :data
    .bss (NOLOAD) : {
        *(.sbss .sbss.* .bss .bss.* COMMON)
        . = ALIGN(16);
        data_end = .;
    } :data

    /DISCARD/ : { *(.comment) *(.note .note.*) *(.eh_frame) *(.riscv.attributes) }
}

ASSERT(data_end <= 0x200000, "data goes over 256 pages")
