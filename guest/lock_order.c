// Each hart moves 1 between two accounts, and takes the lock of each. Even harts take the locks in one order and odd harts in
// the other, so that each of two harts can hold the lock that the other one waits for: then both run for ever.
// The exit value is 0. Mended, all harts take the locks in the same order.
#include "dethart.h"
#include "lock.h"

static struct {
    struct lock lock;
    volatile uint64_t amount;
} accounts[2];

static void move_1(uint64_t from, uint64_t to)
{
#ifdef MENDED
    uint64_t first = 0, second = 1;
#else
    uint64_t first = from, second = to;
#endif
    take_lock(&accounts[first].lock);
    take_lock(&accounts[second].lock);
    accounts[from].amount = accounts[from].amount - 1;
    accounts[to].amount = accounts[to].amount + 1;
    free_lock(&accounts[second].lock);
    free_lock(&accounts[first].lock);
}

uint64_t hart_main(uint64_t hart, uint64_t harts)
{
    (void)harts;
    move_1(hart % 2, 1 - hart % 2);
    return 0;
}
