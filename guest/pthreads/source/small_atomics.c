// Atomics of 1 and 2 bytes, for which gcc calls functions: by LR and SC on the four bytes around, as the manual's table A.6 has
// them for each order.
#include <stdbool.h>
#include <stdint.h>

#pragma GCC diagnostic ignored "-Wbuiltin-declaration-mismatch"

static uint32_t load_reserved(volatile uint32_t *word, int order)
{
    uint32_t value;
    if (order == __ATOMIC_RELAXED || order == __ATOMIC_RELEASE)
        __asm__ volatile("lr.w %0, %1" : "=r"(value) : "A"(*word) : "memory");
    else if (order == __ATOMIC_SEQ_CST)
        __asm__ volatile("lr.w.aqrl %0, %1" : "=r"(value) : "A"(*word) : "memory");
    else
        __asm__ volatile("lr.w.aq %0, %1" : "=r"(value) : "A"(*word) : "memory");
    return value;
}

static bool store_conditional(volatile uint32_t *word, uint32_t value, int order)
{
    uint32_t failed;
    if (order == __ATOMIC_RELAXED || order == __ATOMIC_ACQUIRE || order == __ATOMIC_CONSUME)
        __asm__ volatile("sc.w %0, %2, %1" : "=r"(failed), "+A"(*word) : "r"(value) : "memory");
    else
        __asm__ volatile("sc.w.rl %0, %2, %1" : "=r"(failed), "+A"(*word) : "r"(value) : "memory");
    return !failed;
}

// The four bytes around a cell, and where in them it is.
struct place {
    volatile uint32_t *word;
    unsigned shift;
    uint32_t mask;
};

static struct place place_of(volatile void *cell, unsigned bytes)
{
    uintptr_t at = (uintptr_t)cell;
    unsigned shift = at % 4 * 8;
    return (struct place){ (volatile uint32_t *)(at - at % 4), shift, (bytes == 1 ? 0xffu : 0xffffu) << shift };
}

typedef uint32_t change_of(uint32_t old, uint32_t operand);

static uint32_t adds(uint32_t old, uint32_t operand) { return old + operand; }
static uint32_t subtracts(uint32_t old, uint32_t operand) { return old - operand; }
static uint32_t ands(uint32_t old, uint32_t operand) { return old & operand; }
static uint32_t ors(uint32_t old, uint32_t operand) { return old | operand; }
static uint32_t xors(uint32_t old, uint32_t operand) { return old ^ operand; }
static uint32_t nands(uint32_t old, uint32_t operand) { return ~(old & operand); }
static uint32_t sets(uint32_t old, uint32_t operand) { (void)old; return operand; }

static uint32_t change(volatile void *cell, unsigned bytes, change_of *to, uint32_t operand, int order)
{
    struct place place = place_of(cell, bytes);
    for (;;) {
        uint32_t word = load_reserved(place.word, order);
        uint32_t old = (word & place.mask) >> place.shift;
        uint32_t new = to(old, operand) << place.shift & place.mask;
        if (store_conditional(place.word, (word & ~place.mask) | new, order))
            return old;
    }
}

// What the cell held; it is changed if that was what is expected.
static uint32_t change_if(volatile void *cell, unsigned bytes, uint32_t expected, uint32_t operand, int order)
{
    struct place place = place_of(cell, bytes);
    for (;;) {
        uint32_t word = load_reserved(place.word, order);
        uint32_t old = (word & place.mask) >> place.shift;
        if (old != expected)
            return old;
        if (store_conditional(place.word, (word & ~place.mask) | operand << place.shift, order))
            return old;
    }
}

#define FETCH(name, to, bytes, type)                                                     \
    type __atomic_##name##_##bytes(volatile void *cell, type operand, int order)         \
    {                                                                                    \
        return (type)change(cell, bytes, to, operand, order);                            \
    }
#define FETCH_SYNC(name, to, bytes, type)                                                \
    type __sync_##name##_##bytes(volatile void *cell, type operand)                      \
    {                                                                                    \
        return (type)change(cell, bytes, to, operand, __ATOMIC_SEQ_CST);                 \
    }
#define BOTH_SIZES(name, to) FETCH(name, to, 1, uint8_t) FETCH(name, to, 2, uint16_t)
#define BOTH_SIZES_SYNC(name, to) FETCH_SYNC(name, to, 1, uint8_t) FETCH_SYNC(name, to, 2, uint16_t)

BOTH_SIZES(fetch_add, adds)
BOTH_SIZES(fetch_sub, subtracts)
BOTH_SIZES(fetch_and, ands)
BOTH_SIZES(fetch_or, ors)
BOTH_SIZES(fetch_xor, xors)
BOTH_SIZES(fetch_nand, nands)
BOTH_SIZES(exchange, sets)
BOTH_SIZES_SYNC(fetch_and_add, adds)
BOTH_SIZES_SYNC(fetch_and_sub, subtracts)
BOTH_SIZES_SYNC(fetch_and_and, ands)
BOTH_SIZES_SYNC(fetch_and_or, ors)
BOTH_SIZES_SYNC(fetch_and_xor, xors)
BOTH_SIZES_SYNC(fetch_and_nand, nands)
BOTH_SIZES_SYNC(lock_test_and_set, sets)

#define COMPARE(bytes, type)                                                                                               \
    bool __atomic_compare_exchange_##bytes(volatile void *cell, void *expected, type desired, bool weak, int order, int on_failure) \
    {                                                                                                                      \
        (void)weak;                                                                                                        \
        (void)on_failure;                                                                                                  \
        type wanted = *(type *)expected;                                                                                   \
        type old = (type)change_if(cell, bytes, wanted, desired, order);                                                   \
        *(type *)expected = old;                                                                                           \
        return old == wanted;                                                                                              \
    }                                                                                                                      \
    type __sync_val_compare_and_swap_##bytes(volatile void *cell, type expected, type desired)                            \
    {                                                                                                                      \
        return (type)change_if(cell, bytes, expected, desired, __ATOMIC_SEQ_CST);                                          \
    }                                                                                                                      \
    bool __sync_bool_compare_and_swap_##bytes(volatile void *cell, type expected, type desired)                           \
    {                                                                                                                      \
        return change_if(cell, bytes, expected, desired, __ATOMIC_SEQ_CST) == expected;                                    \
    }

COMPARE(1, uint8_t)
COMPARE(2, uint16_t)
