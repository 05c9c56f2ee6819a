// Each atomic operation of C11, on objects of 1, 2, 4 and 8 bytes and on pointers, gives what the standard says.
#include <assert.h>
#include <stdatomic.h>
#include <stdbool.h>
#include <stdint.h>
#include <stdio.h>

#define ALL_OF(type, most)                                                                             \
    do {                                                                                               \
        static _Atomic(type) cell;                                                                     \
        type expected = 5;                                                                             \
        atomic_init(&cell, 7);                                                                         \
        assert(atomic_load(&cell) == 7 && atomic_load_explicit(&cell, memory_order_relaxed) == 7);     \
        atomic_store(&cell, most);                                                                     \
        assert(atomic_load_explicit(&cell, memory_order_acquire) == (type)(most));                     \
        atomic_store_explicit(&cell, 9, memory_order_release);                                         \
        assert(atomic_exchange(&cell, 10) == 9 && atomic_exchange_explicit(&cell, 11, memory_order_relaxed) == 10); \
        assert(!atomic_compare_exchange_strong(&cell, &expected, 1) && expected == 11);                \
        assert(atomic_compare_exchange_strong(&cell, &expected, 12) && cell == 12);                    \
        expected = 12;                                                                                 \
        assert(atomic_compare_exchange_weak_explicit(&cell, &expected, 13, memory_order_acq_rel, memory_order_relaxed)); \
        assert(atomic_fetch_add(&cell, 3) == 13 && atomic_fetch_sub(&cell, 6) == 16);                  \
        assert(atomic_fetch_sub_explicit(&cell, 11, memory_order_acquire) == 10 && cell == (type)-1);  \
        assert(atomic_fetch_add_explicit(&cell, 13, memory_order_release) == (type)-1);                \
        assert(atomic_fetch_or(&cell, 3) == 12 && atomic_fetch_xor(&cell, 5) == 15);                   \
        assert(atomic_fetch_and_explicit(&cell, 6, memory_order_seq_cst) == 10 && cell == 2);          \
    } while (0)

int main(void)
{
    ALL_OF(char, 127);
    ALL_OF(unsigned char, 255);
    ALL_OF(short, -32768);
    ALL_OF(unsigned short, 65535);
    ALL_OF(int, INT32_MIN);
    ALL_OF(unsigned, UINT32_MAX);
    ALL_OF(long, INT64_MIN);
    ALL_OF(unsigned long, UINT64_MAX);

    static int things[2], *none;
    static _Atomic(int *) pointer;
    assert(atomic_exchange(&pointer, &things[0]) == NULL);
    assert(!atomic_compare_exchange_strong(&pointer, &none, &things[1]) && none == &things[0]);
    assert(atomic_compare_exchange_strong(&pointer, &none, &things[1]) && atomic_load(&pointer) == &things[1]);

    static atomic_bool is_set;
    assert(!atomic_exchange(&is_set, true) && atomic_load(&is_set));
    static atomic_flag flag = ATOMIC_FLAG_INIT;
    assert(!atomic_flag_test_and_set(&flag) && atomic_flag_test_and_set(&flag));
    atomic_flag_clear(&flag);
    assert(!atomic_flag_test_and_set_explicit(&flag, memory_order_acquire));
    atomic_flag_clear_explicit(&flag, memory_order_release);
    atomic_thread_fence(memory_order_acq_rel);
    atomic_signal_fence(memory_order_seq_cst);

    static _Atomic float quarter = 0.25f;
    assert(atomic_exchange(&quarter, 0.5f) == 0.25f && atomic_load(&quarter) == 0.5f);
    puts("atomics");
    return 0;
}
