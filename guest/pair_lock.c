// Hart 0 writes a pair of numbers under a lock, and the other harts read it under the same lock, which a hart takes by an AMOSWAP and frees
// by a store. The AMOSWAP orders nothing of itself, so the fences do.
// A hart that reads two numbers of different pairs exits with 1.
#include "dethart.h"
#include "fence.h"
#include "relaxed.h"

enum { TIMES = 3 };

static volatile uint64_t taken;
static volatile uint64_t first, second;

static void take(void)
{
    while (relaxed_swap(&taken, 1) != 0)
        ;
    FENCE(1, r, rw);
}

static void write_pair(uint64_t number)
{
    take();
    first = number;
    second = number;
    FENCE(2, w, w);
    taken = 0;
}

// Gives a number other than 0 where the two differ. There is no branch before the lock is free again: it would keep the loads before the
// store that frees it.
static uint64_t read_pair(void)
{
    take();
    uint64_t difference = first ^ second;
    FENCE(3, r, w);
    taken = 0;
    return difference;
}

uint64_t hart_main(uint64_t hart, uint64_t harts)
{
    (void)harts;
    uint64_t is_torn = 0;
    for (uint64_t i = 1; i <= TIMES; i++) {
        if (hart == 0)
            write_pair(i);
        else
            is_torn |= read_pair();
    }
    return is_torn != 0;
}
