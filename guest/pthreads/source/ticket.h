// A lock by tickets: each comes in when its number is called, so in the order of coming. Zeros are a free one.
//
// Taking it acquires, freeing it releases, and neither does more, as in a C library (amoswap.w.aq, amoswap.w.rl). So a
// store before it is freed and a load after it may pass each other. By the manual's table A.6:
//   take   amoadd.w; lw until it is one's own number; fence r,rw     (relaxed RMW, acquire load)
//   try    lw; fence r,rw; lr.w, sc.w                                (acquire load, relaxed RMW)
//   free   fence rw,w; sw                                            (release store)
// What was done under the lock is seen through the cell `serving`, so it is its load that has to acquire, and not the AMO.
#ifndef TICKET_H
#define TICKET_H

#include "kit.h"

static inline void ticket_take(struct __ticket *lock)
{
    unsigned mine = add_relaxed(&lock->next, 1);
    if (lock->serving != mine) {
        __kit_lets_others_begin();
        do
            __kit_wait_a_round();
        while (lock->serving != mine);
    }
    acquire_fence();
}

// Takes it if it is free.
static inline bool ticket_try(struct __ticket *lock)
{
    unsigned called = load_acquire(&lock->serving);
    return change_relaxed(&lock->next, called, called + 1);
}

static inline void ticket_free(struct __ticket *lock)
{
    store_release(&lock->serving, lock->serving + 1);
}

static inline bool ticket_is_free(const struct __ticket *lock)
{
    return lock->next == lock->serving;
}

#endif
