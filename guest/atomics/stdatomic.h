// Atomics of C11 by the manual's table A.6 (Unprivileged ISA 20191213, appendix A.5).
//
// gcc 12 makes of each atomic store an AMO, also of a relaxed one, and of each acquire and each fence `fence iorw,iorw`. Those wait
// for the serial phase of a round, and so hide what weaker instructions let through. Here each function has the instructions of
// its order, for objects of 4 and 8 bytes, and loads and stores also of 1 and 2. Operators on atomic objects (x++, x = 1) and gcc's
// own __atomic_ and __sync_ functions stay as gcc makes them.
#ifndef DETHART_STDATOMIC_H
#define DETHART_STDATOMIC_H

#include_next <stdatomic.h>

#define __A6 static inline __attribute__((always_inline, unused))

// Fences: acquire fence r,rw; release fence rw,w; both fence.tso; sequentially consistent fence rw,rw.
__A6 void __a6_fence(memory_order order)
{
    if (order == memory_order_acquire || order == memory_order_consume)
        __asm__ volatile("fence r, rw" ::: "memory");
    else if (order == memory_order_release)
        __asm__ volatile("fence rw, w" ::: "memory");
    else if (order == memory_order_acq_rel)
        __asm__ volatile("fence.tso" ::: "memory");
    else if (order == memory_order_seq_cst)
        __asm__ volatile("fence rw, rw" ::: "memory");
}

// Loads: acquire l; fence r,rw. Sequentially consistent fence rw,rw; l; fence r,rw.
__A6 void __a6_before_load(memory_order order)
{
    if (order == memory_order_seq_cst)
        __a6_fence(memory_order_seq_cst);
}

__A6 void __a6_after_load(memory_order order)
{
    if (order != memory_order_relaxed)
        __a6_fence(memory_order_acquire);
}

// Stores: release and sequentially consistent fence rw,w; s.
__A6 void __a6_before_store(memory_order order)
{
    if (order != memory_order_relaxed)
        __a6_fence(memory_order_release);
}

// Read-modify-writes: relaxed amo<op>, acquire amo<op>.aq, release amo<op>.rl, all others amo<op>.aqrl.
#define __A6_AMO_AS(instruction)                                                                     \
    __asm__ volatile(instruction " %0, %2, %1" : "=r"(__old), "+A"(*__cell) : "r"(__operand) : "memory")
#define __A6_AMO(name, instruction, type)                                                            \
    __A6 type name(volatile void *__at, type __operand, memory_order __order)                        \
    {                                                                                                \
        volatile type *__cell = (volatile type *)__at;                                               \
        type __old;                                                                                  \
        if (__order == memory_order_relaxed)                                                         \
            __A6_AMO_AS(instruction);                                                                \
        else if (__order == memory_order_acquire || __order == memory_order_consume)                 \
            __A6_AMO_AS(instruction ".aq");                                                          \
        else if (__order == memory_order_release)                                                    \
            __A6_AMO_AS(instruction ".rl");                                                          \
        else                                                                                         \
            __A6_AMO_AS(instruction ".aqrl");                                                        \
        return __old;                                                                                \
    }
__A6_AMO(__a6_add_4, "amoadd.w", int)
__A6_AMO(__a6_and_4, "amoand.w", int)
__A6_AMO(__a6_or_4, "amoor.w", int)
__A6_AMO(__a6_xor_4, "amoxor.w", int)
__A6_AMO(__a6_swap_4, "amoswap.w", int)
__A6_AMO(__a6_add_8, "amoadd.d", long)
__A6_AMO(__a6_and_8, "amoand.d", long)
__A6_AMO(__a6_or_8, "amoor.d", long)
__A6_AMO(__a6_xor_8, "amoxor.d", long)
__A6_AMO(__a6_swap_8, "amoswap.d", long)

// Compare and exchange: a loop of lr and sc, with lr.aq for acquire, sc.rl for release, lr.aq and sc.rl for both, and lr.aqrl and
// sc.rl for sequentially consistent.
#define __A6_COMPARE_AS(lr, sc)                                                                      \
    __asm__ volatile("1: " lr " %0, %2\n   bne %0, %3, 2f\n   " sc " %1, %4, %2\n   bnez %1, 1b\n2:" \
                     : "=&r"(__old), "=&r"(__failed), "+A"(*__cell)                                  \
                     : "r"(__expected), "r"(__desired)                                               \
                     : "memory")
#define __A6_COMPARE(name, width, type)                                                              \
    __A6 type name(volatile void *__at, type __expected, type __desired, memory_order __order)       \
    {                                                                                                \
        volatile type *__cell = (volatile type *)__at;                                               \
        type __old;                                                                                  \
        int __failed;                                                                                \
        if (__order == memory_order_relaxed)                                                         \
            __A6_COMPARE_AS("lr." width, "sc." width);                                               \
        else if (__order == memory_order_acquire || __order == memory_order_consume)                 \
            __A6_COMPARE_AS("lr." width ".aq", "sc." width);                                         \
        else if (__order == memory_order_release)                                                    \
            __A6_COMPARE_AS("lr." width, "sc." width ".rl");                                         \
        else if (__order == memory_order_acq_rel)                                                    \
            __A6_COMPARE_AS("lr." width ".aq", "sc." width ".rl");                                   \
        else                                                                                         \
            __A6_COMPARE_AS("lr." width ".aqrl", "sc." width ".rl");                                 \
        return __old;                                                                                \
    }
__A6_COMPARE(__a6_compare_4, "w", int)
__A6_COMPARE(__a6_compare_8, "d", long)

// For objects of any type. `__bits` are those of a value of this type, and a value is copied out of them.
#define __a6_type(cell) __typeof__((void)0, *(cell))
#define __a6_copy(to, from) __builtin_memcpy(&(to), &(from), sizeof(to) < sizeof(from) ? sizeof(to) : sizeof(from))

#define __a6_load(pointer, order) __extension__({                                                    \
    __auto_type __load_cell = (pointer);                                                             \
    memory_order __load_order = (order);                                                             \
    __a6_type(__load_cell) __load_value;                                                             \
    __a6_before_load(__load_order);                                                                  \
    if (sizeof __load_value <= 8)                                                                    \
        __load_value = *(volatile __a6_type(__load_cell) *)__load_cell;                              \
    else                                                                                             \
        __atomic_load(__load_cell, &__load_value, __load_order);                                     \
    __a6_after_load(__load_order);                                                                   \
    __load_value; })

#define __a6_store(pointer, value, order) __extension__({                                            \
    __auto_type __store_cell = (pointer);                                                            \
    memory_order __store_order = (order);                                                            \
    __a6_type(__store_cell) __store_value = (value);                                                 \
    __a6_before_store(__store_order);                                                                \
    if (sizeof __store_value <= 8)                                                                   \
        *(volatile __a6_type(__store_cell) *)__store_cell = __store_value;                           \
    else                                                                                             \
        __atomic_store(__store_cell, &__store_value, __store_order);                                 \
    (void)0; })

#define __a6_exchange(pointer, value, order) __extension__({                                         \
    __auto_type __swap_cell = (pointer);                                                             \
    memory_order __swap_order = (order);                                                             \
    __a6_type(__swap_cell) __swap_value = (value), __swap_old;                                       \
    if (sizeof __swap_old == 4) {                                                                    \
        int __bits;                                                                                  \
        __a6_copy(__bits, __swap_value);                                                             \
        __bits = __a6_swap_4(__swap_cell, __bits, __swap_order);                                     \
        __a6_copy(__swap_old, __bits);                                                               \
    } else if (sizeof __swap_old == 8) {                                                             \
        long __bits;                                                                                 \
        __a6_copy(__bits, __swap_value);                                                             \
        __bits = __a6_swap_8(__swap_cell, __bits, __swap_order);                                     \
        __a6_copy(__swap_old, __bits);                                                               \
    } else                                                                                           \
        __atomic_exchange(__swap_cell, &__swap_value, &__swap_old, __swap_order);                    \
    __swap_old; })

// The operand is an integer; for a type of 1 or 2 bytes the function of gcc's name is called.
#define __a6_fetch(operation, function, pointer, operand, bits, order) __extension__({               \
    __auto_type __fetch_cell = (pointer);                                                            \
    memory_order __fetch_order = (order);                                                            \
    long __fetch_operand = (long)(operand);                                                          \
    __a6_type(__fetch_cell) __fetch_old;                                                             \
    if (sizeof __fetch_old == 4) {                                                                   \
        int __bits = __a6_##operation##_4(__fetch_cell, (int)(bits), __fetch_order);                 \
        __a6_copy(__fetch_old, __bits);                                                              \
    } else if (sizeof __fetch_old == 8) {                                                            \
        long __bits = __a6_##operation##_8(__fetch_cell, (bits), __fetch_order);                     \
        __a6_copy(__fetch_old, __bits);                                                              \
    } else                                                                                           \
        __fetch_old = function(__fetch_cell, __fetch_operand, __fetch_order);                        \
    __fetch_old; })

#define __a6_compare(pointer, expected, value, order, on_failure) __extension__({                    \
    __auto_type __compare_cell = (pointer);                                                          \
    __auto_type __compare_expected = (expected);                                                     \
    memory_order __compare_order = (order);                                                          \
    __a6_type(__compare_cell) __compare_value = (value);                                             \
    _Bool __compare_did;                                                                             \
    if (sizeof __compare_value == 4) {                                                               \
        int __old, __wanted, __bits;                                                                 \
        __a6_copy(__wanted, *__compare_expected);                                                    \
        __a6_copy(__bits, __compare_value);                                                          \
        __old = __a6_compare_4(__compare_cell, __wanted, __bits, __compare_order);                   \
        __compare_did = __old == __wanted;                                                           \
        if (!__compare_did)                                                                          \
            __a6_copy(*__compare_expected, __old);                                                   \
    } else if (sizeof __compare_value == 8) {                                                        \
        long __old, __wanted, __bits;                                                                \
        __a6_copy(__wanted, *__compare_expected);                                                    \
        __a6_copy(__bits, __compare_value);                                                          \
        __old = __a6_compare_8(__compare_cell, __wanted, __bits, __compare_order);                   \
        __compare_did = __old == __wanted;                                                           \
        if (!__compare_did)                                                                          \
            __a6_copy(*__compare_expected, __old);                                                   \
    } else                                                                                           \
        __compare_did = __atomic_compare_exchange(__compare_cell, __compare_expected, &__compare_value, 0, __compare_order, on_failure); \
    __compare_did; })

#undef atomic_thread_fence
#undef atomic_load
#undef atomic_load_explicit
#undef atomic_store
#undef atomic_store_explicit
#undef atomic_exchange
#undef atomic_exchange_explicit
#undef atomic_compare_exchange_strong
#undef atomic_compare_exchange_strong_explicit
#undef atomic_compare_exchange_weak
#undef atomic_compare_exchange_weak_explicit
#undef atomic_fetch_add
#undef atomic_fetch_add_explicit
#undef atomic_fetch_sub
#undef atomic_fetch_sub_explicit
#undef atomic_fetch_or
#undef atomic_fetch_or_explicit
#undef atomic_fetch_xor
#undef atomic_fetch_xor_explicit
#undef atomic_fetch_and
#undef atomic_fetch_and_explicit
#undef atomic_flag_clear
#undef atomic_flag_clear_explicit

#define atomic_thread_fence(order) __a6_fence(order)
#define atomic_load(pointer) __a6_load(pointer, memory_order_seq_cst)
#define atomic_load_explicit(pointer, order) __a6_load(pointer, order)
#define atomic_store(pointer, value) __a6_store(pointer, value, memory_order_seq_cst)
#define atomic_store_explicit(pointer, value, order) __a6_store(pointer, value, order)
#define atomic_exchange(pointer, value) __a6_exchange(pointer, value, memory_order_seq_cst)
#define atomic_exchange_explicit(pointer, value, order) __a6_exchange(pointer, value, order)
#define atomic_compare_exchange_strong_explicit(pointer, expected, value, order, on_failure) __a6_compare(pointer, expected, value, order, on_failure)
#define atomic_compare_exchange_weak_explicit(pointer, expected, value, order, on_failure) __a6_compare(pointer, expected, value, order, on_failure)
#define atomic_compare_exchange_strong(pointer, expected, value) __a6_compare(pointer, expected, value, memory_order_seq_cst, memory_order_seq_cst)
#define atomic_compare_exchange_weak(pointer, expected, value) __a6_compare(pointer, expected, value, memory_order_seq_cst, memory_order_seq_cst)
#define atomic_fetch_add_explicit(pointer, operand, order) __a6_fetch(add, __atomic_fetch_add, pointer, operand, __fetch_operand, order)
#define atomic_fetch_sub_explicit(pointer, operand, order) __a6_fetch(add, __atomic_fetch_sub, pointer, operand, -__fetch_operand, order)
#define atomic_fetch_or_explicit(pointer, operand, order) __a6_fetch(or, __atomic_fetch_or, pointer, operand, __fetch_operand, order)
#define atomic_fetch_xor_explicit(pointer, operand, order) __a6_fetch(xor, __atomic_fetch_xor, pointer, operand, __fetch_operand, order)
#define atomic_fetch_and_explicit(pointer, operand, order) __a6_fetch(and, __atomic_fetch_and, pointer, operand, __fetch_operand, order)
#define atomic_fetch_add(pointer, operand) atomic_fetch_add_explicit(pointer, operand, memory_order_seq_cst)
#define atomic_fetch_sub(pointer, operand) atomic_fetch_sub_explicit(pointer, operand, memory_order_seq_cst)
#define atomic_fetch_or(pointer, operand) atomic_fetch_or_explicit(pointer, operand, memory_order_seq_cst)
#define atomic_fetch_xor(pointer, operand) atomic_fetch_xor_explicit(pointer, operand, memory_order_seq_cst)
#define atomic_fetch_and(pointer, operand) atomic_fetch_and_explicit(pointer, operand, memory_order_seq_cst)
#define atomic_flag_clear_explicit(flag, order) __extension__({                                      \
    __a6_before_store(order);                                                                        \
    *(volatile unsigned char *)&(flag)->__val = 0; })
#define atomic_flag_clear(flag) atomic_flag_clear_explicit(flag, memory_order_seq_cst)

#endif
