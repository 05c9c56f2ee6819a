# Where every hart begins, with its number in a0 (x10) and the number of harts in a1 (x11).

    .equ  stack_bytes, 0x2000

    .cfi_sections .debug_frame      # so that a debugger knows that nothing called _start

    .section .text.start, "ax"
    .globl _start
_start:
    .cfi_startproc
    .cfi_undefined ra
    addi  t0, a0, 1
    li    t1, stack_bytes
    mul   t0, t0, t1
    la    sp, stacks
    add   sp, sp, t0        # hart h's stack ends at stacks + (h + 1) * stack_bytes
    call  hart_main
    li    a7, 0             # the exit call; its value is what hart_main returned in a0
    ecall                   # the hart stops here
    .cfi_endproc

    .section .stacks, "aw", @nobits
    .balign 16
stacks:
    .skip 64 * stack_bytes
