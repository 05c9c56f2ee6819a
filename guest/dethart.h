// What a guest program can ask of dethart, and atomics and fences of the A extension.
// docs/semantics.md says what each of them does in a round.
#ifndef DETHART_H
#define DETHART_H

#include <stdbool.h>
#include <stdint.h>

// The program: each hart calls it once, with its number, from 0 on, and the number of harts.
// What it returns is the hart's exit value.
uint64_t hart_main(uint64_t hart, uint64_t harts);

// Calls. Each is an ECALL, so a hart does at most one in a round, or as many as its budget lets it.

static inline uint64_t call(uint64_t number, uint64_t argument)
{
    register uint64_t a0 __asm__("a0") = argument;
    register uint64_t a7 __asm__("a7") = number;
    __asm__ volatile("ecall" : "+r"(a0) : "r"(a7) : "memory");
    return a0;
}

// Stops the hart with this exit value.
_Noreturn static inline void exit_hart(uint64_t value)
{
    call(0, value);
    __builtin_unreachable();
}

// Adds a byte to the output, which all harts share. False: the output is full, and stays as it is.
static inline bool put_byte(uint8_t byte)
{
    return call(1, byte) == 0;
}

// Takes the next byte of the input, which all harts share. -1: there is none left.
static inline int get_byte(void)
{
    return (int)call(2, 0);
}

// The number of the running round, from 1 on.
static inline uint64_t round_number(void)
{
    return call(3, 0);
}

// Atomics on 64 bits, at addresses that are multiples of 8. All are sequentially consistent.

// Adds to the cell, and gives what it held before.
static inline uint64_t fetch_add(volatile uint64_t *cell, uint64_t amount)
{
    uint64_t old;
    __asm__ volatile("amoadd.d.aqrl %0, %2, %1" : "=r"(old), "+A"(*cell) : "r"(amount) : "memory");
    return old;
}

// Writes the cell, and gives what it held before.
static inline uint64_t swap(volatile uint64_t *cell, uint64_t value)
{
    uint64_t old;
    __asm__ volatile("amoswap.d.aqrl %0, %2, %1" : "=r"(old), "+A"(*cell) : "r"(value) : "memory");
    return old;
}

// Writes the cell if it holds what is expected, and says whether it did.
static inline bool compare_exchange(volatile uint64_t *cell, uint64_t expected, uint64_t value)
{
    uint64_t old, failed;
    __asm__ volatile("1: lr.d.aqrl %0, %2\n"
                     "   bne %0, %3, 2f\n"
                     "   sc.d.rl %1, %4, %2\n"
                     "   bnez %1, 1b\n"
                     "2:"
                     : "=&r"(old), "=&r"(failed), "+A"(*cell)
                     : "r"(expected), "r"(value)
                     : "memory");
    return old == expected;
}

// Fences. Only the full one waits for the serial phase: the others are done without leaving the parallel phase.

// All before it comes before all after it. Put one into every loop that waits for another hart: it ends the hart's
// part of the round, where the loop would read the same memory over and over until the quota is used up.
static inline void full_fence(void)
{
    __asm__ volatile("fence rw, rw" ::: "memory");
}

// The loads before it come before all after it.
static inline void acquire_fence(void)
{
    __asm__ volatile("fence r, rw" ::: "memory");
}

// All before it comes before the stores after it.
static inline void release_fence(void)
{
    __asm__ volatile("fence rw, w" ::: "memory");
}

#endif
