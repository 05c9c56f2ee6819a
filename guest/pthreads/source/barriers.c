// Barriers: the last that comes lets all pass.
//
// By the manual's table A.6: to come is amoadd.w.aqrl (acquire and release RMW), since the last one has to see what all others
// did; to let pass is a release store (fence rw,w; sw), to pass an acquire load (lw; fence r,rw), and so is to look which pass it is
// before coming. To be through is amoadd.w.rl (release RMW), and destroying looks at that by an acquire load.
#include <errno.h>
#include "kit.h"

int pthread_barrier_init(pthread_barrier_t *barrier, const pthread_barrierattr_t *attr, unsigned all)
{
    (void)attr;
    if (all == 0)
        return EINVAL;
    *barrier = (pthread_barrier_t){ .all = all };
    return 0;
}

// One thread may destroy it as soon as it has passed itself, while others are still on their way out: it waits for them.
int pthread_barrier_destroy(pthread_barrier_t *barrier)
{
    if (barrier->all == 0)
        return EINVAL;
    if (barrier->come)
        return EBUSY;
    while (barrier->left != barrier->passes * barrier->all)
        __kit_wait_a_round();
    acquire_fence();
    barrier->all = 0;
    return 0;
}

int pthread_barrier_wait(pthread_barrier_t *barrier)
{
    __kit_end_with_others();
    if (barrier->all == 0)
        return EINVAL;
    unsigned passes = load_acquire(&barrier->passes);
    bool is_last = add_both(&barrier->come, 1) == barrier->all - 1;
    if (is_last) {
        barrier->come = 0;
        store_release(&barrier->passes, passes + 1);
    } else {
        __kit_lets_others_begin();
        while (barrier->passes == passes)
            __kit_wait_a_round();
        acquire_fence();
    }
    add_release(&barrier->left, 1);
    return is_last ? PTHREAD_BARRIER_SERIAL_THREAD : 0;
}
