/* How a program lies in memory. The machine wants each segment in 128-byte blocks of its own, apart from the others', and
   runs only what cannot be written. Each begins at an address that is easy to recognise in an order, unless the one
   before it reaches that far. The stacks, from 0x7F000000 on, are the machine's own. */
ENTRY(_start)

PHDRS
{
    text   PT_LOAD FLAGS(5);    /* read and run */
    rodata PT_LOAD FLAGS(4);    /* read */
    data   PT_LOAD FLAGS(6);    /* read and write */
    bss    PT_LOAD FLAGS(6);    /* the same, and zeros at first */
}

SECTIONS
{
    . = 0x100000;
    .text : { KEEP(*(.text.start)) *(.text .text.*) } :text

    . = MAX(ALIGN(128), 0x200000);
    .rodata : { *(.rodata .rodata.*) } :rodata

    . = MAX(ALIGN(128), 0x300000);
    .data : { *(.data .data.*) } :data

    . = MAX(ALIGN(128), 0x400000);
    .bss : { *(.bss .bss.*) *(COMMON) } :bss

    /DISCARD/ : { *(.comment) *(.note .note.*) *(.eh_frame) *(.gnu.attributes) }
}
