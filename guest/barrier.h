// A barrier: no hart goes on from it before all have come to it. It can be used again at once.
#ifndef BARRIER_H
#define BARRIER_H

#include "dethart.h"

// A barrier of zeros is one that no hart has come to.
struct barrier {
    volatile uint64_t arrived;
    volatile uint64_t passes;
};

static inline void barrier_wait(struct barrier *barrier, uint64_t harts)
{
    uint64_t passes = barrier->passes;
    if (fetch_add(&barrier->arrived, 1) == harts - 1) {
        barrier->arrived = 0;
        release_fence();
        barrier->passes = passes + 1;
    } else {
        while (barrier->passes == passes)
            full_fence();
    }
    full_fence();
}

#endif
