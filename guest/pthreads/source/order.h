// Loads, stores and atomics of 32 bits, each with the name of its C11 order and the instructions of the manual's table A.6
// (Unprivileged ISA 20191213, appendix A.5, "Mappings from C/C++ primitives to RISC-V primitives").
#ifndef ORDER_H
#define ORDER_H

#include <stdbool.h>
#include "dethart.h" // acquire_fence: fence r,rw; release_fence: fence rw,w

// acquire load: l{b|h|w|d}; fence r,rw
static inline unsigned load_acquire(const volatile unsigned *cell)
{
    unsigned value = *cell;
    acquire_fence();
    return value;
}

// release store: fence rw,w; s{b|h|w|d}
static inline void store_release(volatile unsigned *cell, unsigned value)
{
    release_fence();
    *cell = value;
}

// relaxed: amo<op>.{w|d}
static inline unsigned add_relaxed(volatile unsigned *cell, unsigned amount)
{
    unsigned old;
    __asm__ volatile("amoadd.w %0, %2, %1" : "=r"(old), "+A"(*cell) : "r"(amount) : "memory");
    return old;
}

// release: amo<op>.{w|d}.rl
static inline unsigned add_release(volatile unsigned *cell, unsigned amount)
{
    unsigned old;
    __asm__ volatile("amoadd.w.rl %0, %2, %1" : "=r"(old), "+A"(*cell) : "r"(amount) : "memory");
    return old;
}

// acquire and release: amo<op>.{w|d}.aqrl
static inline unsigned add_both(volatile unsigned *cell, unsigned amount)
{
    unsigned old;
    __asm__ volatile("amoadd.w.aqrl %0, %2, %1" : "=r"(old), "+A"(*cell) : "r"(amount) : "memory");
    return old;
}

static inline unsigned or_both(volatile unsigned *cell, unsigned bits)
{
    unsigned old;
    __asm__ volatile("amoor.w.aqrl %0, %2, %1" : "=r"(old), "+A"(*cell) : "r"(bits) : "memory");
    return old;
}

static inline unsigned and_both(volatile unsigned *cell, unsigned bits)
{
    unsigned old;
    __asm__ volatile("amoand.w.aqrl %0, %2, %1" : "=r"(old), "+A"(*cell) : "r"(bits) : "memory");
    return old;
}

// acquire: amo<op>.{w|d}.aq
static inline unsigned swap_acquire(volatile unsigned *cell, unsigned value)
{
    unsigned old;
    __asm__ volatile("amoswap.w.aq %0, %2, %1" : "=r"(old), "+A"(*cell) : "r"(value) : "memory");
    return old;
}

// relaxed: loop: lr.{w|d}; <op>; sc.{w|d}; bnez loop
static inline bool change_relaxed(volatile unsigned *cell, unsigned expected, unsigned value)
{
    unsigned old, failed;
    __asm__ volatile("1: lr.w %0, %2\n"
                     "   bne %0, %3, 2f\n"
                     "   sc.w %1, %4, %2\n"
                     "   bnez %1, 1b\n"
                     "2:"
                     : "=&r"(old), "=&r"(failed), "+A"(*cell)
                     : "r"(expected), "r"(value)
                     : "memory");
    return old == expected;
}

// acquire: loop: lr.{w|d}.aq; <op>; sc.{w|d}; bnez loop
static inline bool change_acquire(volatile unsigned *cell, unsigned expected, unsigned value)
{
    unsigned old, failed;
    __asm__ volatile("1: lr.w.aq %0, %2\n"
                     "   bne %0, %3, 2f\n"
                     "   sc.w %1, %4, %2\n"
                     "   bnez %1, 1b\n"
                     "2:"
                     : "=&r"(old), "=&r"(failed), "+A"(*cell)
                     : "r"(expected), "r"(value)
                     : "memory");
    return old == expected;
}

#endif
