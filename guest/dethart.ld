/* The memory of a guest program: 1 MiB, the 256 pages that dethart gives where nothing else is said. */

OUTPUT_ARCH(riscv)
ENTRY(_start)

MEMORY
{
    code      (rx) : ORIGIN = 0x01000, LENGTH = 0x0f000
    constants (r)  : ORIGIN = 0x10000, LENGTH = 0x10000
    variables (rw) : ORIGIN = 0x20000, LENGTH = 0x60000
    stacks    (rw) : ORIGIN = 0x80000, LENGTH = 0x80000
}

/* dethart refuses two segments that share a byte, and one that is both written to and executed. */
PHDRS
{
    code      PT_LOAD FLAGS(5);
    constants PT_LOAD FLAGS(4);
    variables PT_LOAD FLAGS(6);
    stacks    PT_LOAD FLAGS(6);
}

SECTIONS
{
    .text : { *(.text.start) *(.text .text.*) } >code :code

    .rodata : { *(.rodata .rodata.* .srodata .srodata.*) } >constants :constants

    .data : { *(.data .data.* .sdata .sdata.*) } >variables :variables
    .bss (NOLOAD) : { *(.bss .bss.* .sbss .sbss.* COMMON) } >variables :variables

    .stacks (NOLOAD) : { *(.stacks) } >stacks :stacks

    /DISCARD/ : { *(.comment .riscv.attributes .note .note.* .eh_frame) }
}
