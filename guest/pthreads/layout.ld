/* The memory of a program with threads and a C library, PAGES * 4096 bytes: code, constants, variables, heap and stacks, one after
   another. The stacks have the upper half. */

OUTPUT_ARCH(riscv)
ENTRY(_start)

MEMORY
{
    ram : ORIGIN = 0x1000, LENGTH = __pages * 4096 - 0x1000
}

/* dethart refuses two segments that share a byte, and one that is both written to and executed. */
PHDRS
{
    code      PT_LOAD FLAGS(5);
    constants PT_LOAD FLAGS(4);
    variables PT_LOAD FLAGS(6);
    stacks    PT_LOAD FLAGS(6);
    own       PT_TLS FLAGS(4);
}

SECTIONS
{
    .text : { *(.text.start) *(.text .text.*) } >ram :code

    .rodata : ALIGN(16) { *(.rodata .rodata.* .srodata .srodata.*) } >ram :constants
    .init_array : ALIGN(8)
    {
        __preinit_array_start = .;
        KEEP(*(.preinit_array))
        __preinit_array_end = .;
        __init_array_start = .;
        KEEP(*(SORT_BY_INIT_PRIORITY(.init_array.*)))
        KEEP(*(.init_array))
        __init_array_end = .;
        __fini_array_start = .;
        KEEP(*(SORT_BY_INIT_PRIORITY(.fini_array.*)))
        KEEP(*(.fini_array))
        __fini_array_end = .;
    } >ram :constants

    /* What a thread's own variables begin as; each thread has a copy. start.S has the first, so that .tdata is never empty:
       else .tbss would begin the segment, at another address. */
    .tdata : ALIGN(64) { KEEP(*(.tdata.first)) *(.tdata .tdata.*) } >ram :constants :own
    .tbss (NOLOAD) : { *(.tbss .tbss.* .tcommon) } >ram :constants :own
    __tdata_start = ADDR(.tdata);
    __tdata_size = SIZEOF(.tdata);
    __tls_size = ADDR(.tbss) + SIZEOF(.tbss) - ADDR(.tdata);
    __tls_room = (__tls_size + 63) / 64 * 64;

    .data : ALIGN(64) { *(.data .data.* .sdata .sdata.*) } >ram :variables
    .bss (NOLOAD) : { *(.bss .bss.* .sbss .sbss.* COMMON) . = ALIGN(16); } >ram :variables

    __heap_start = .;
    __stacks_end = ORIGIN(ram) + LENGTH(ram);
    __stacks_size = __pages * 2048;
    __heap_end = __stacks_end - __stacks_size;
    ASSERT(__heap_start + 0x1000 <= __heap_end, "no room for a heap: give more PAGES")
    .stacks __heap_end (NOLOAD) : { . += __stacks_size; } >ram :stacks

    /DISCARD/ : { *(.comment .riscv.attributes .note .note.* .eh_frame .eh_frame.*) }
}
