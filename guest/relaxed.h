// Atomics on 64 bits that order nothing of other addresses. All else is as those of dethart.h.
#ifndef RELAXED_H
#define RELAXED_H

#include "dethart.h"

static inline uint64_t relaxed_fetch_add(volatile uint64_t *cell, uint64_t amount)
{
    uint64_t old;
    __asm__ volatile("amoadd.d %0, %2, %1" : "=r"(old), "+A"(*cell) : "r"(amount) : "memory");
    return old;
}

static inline uint64_t relaxed_swap(volatile uint64_t *cell, uint64_t value)
{
    uint64_t old;
    __asm__ volatile("amoswap.d %0, %2, %1" : "=r"(old), "+A"(*cell) : "r"(value) : "memory");
    return old;
}

static inline bool relaxed_compare_exchange(volatile uint64_t *cell, uint64_t expected, uint64_t value)
{
    uint64_t old, failed;
    __asm__ volatile("1: lr.d %0, %2\n"
                     "   bne %0, %3, 2f\n"
                     "   sc.d %1, %4, %2\n"
                     "   bnez %1, 1b\n"
                     "2:"
                     : "=&r"(old), "=&r"(failed), "+A"(*cell)
                     : "r"(expected), "r"(value)
                     : "memory");
    return old == expected;
}

#endif
