# Where every hart begins, with its number in a0 and the number of harts in a1.
# The stacks lie one below the other, that of hart 0 highest. At the top of each are the thread's own variables, from tp on.

    .section .text.start, "ax"
    .globl _start
_start:
    la    t0, __stacks_size
    divu  t0, t0, a1
    andi  t0, t0, -64       # the bytes of a hart, a multiple of what variables may be aligned to
    la    t1, __stacks_end
    mul   t2, t0, a0
    sub   t1, t1, t2        # where those of this hart end
    sub   a2, t1, t0        # and begin
    la    t2, __tls_room
    sub   tp, t1, t2
    mv    sp, tp
    call  __kit_hart_begins # (hart, harts, the lowest word of the stack)
1:  call  __kit_hart_works  # until a thread ends
    j     1b

# Leaves all functions of a thread.
    .globl __kit_leave_thread
__kit_leave_thread:
    mv    sp, tp
    j     1b

# The first of the threads' own variables, so that layout.ld always has some to begin with.
    .section .tdata.first, "awT", @progbits
    .balign 64
    .dword 1
