// Fences by number. A guest built with -DWITHOUT=N lacks fence N; any other build has all of them.
#ifndef FENCE_H
#define FENCE_H

#ifndef WITHOUT
#define WITHOUT 0
#endif

// What comes before it, of the kinds BEFORE (r, w or rw), comes before what comes after it, of the kinds AFTER. Left out, it still
// holds the compiler: the instructions are those of the guest with this fence, without its word.
#define FENCE(number, before, after)                                            \
    do {                                                                        \
        if ((number) == WITHOUT)                                                \
            __asm__ volatile("" ::: "memory");                                  \
        else                                                                    \
            __asm__ volatile("fence " #before ", " #after ::: "memory");        \
    } while (0)

#endif
