// A lock that one hart holds at a time. One of zeros is free.
#ifndef LOCK_H
#define LOCK_H

#include "dethart.h"

struct lock {
    volatile uint64_t taken;
};

static inline void take_lock(struct lock *lock)
{
    while (swap(&lock->taken, 1) != 0)
        ;
}

static inline void free_lock(struct lock *lock)
{
    release_fence();
    lock->taken = 0;
}

#endif
