// Conditions: a queue of those that wait. A signal wakes the first, never one that comes later, and nobody wakes without one, but with
// --spurious.
//
// A thread waits on its own stack, so the one that wakes it is done with its record before it stores `woken`. By the manual's
// table A.6: signal is a release store (fence rw,w; sw), the end of the wait an acquire load (lw; fence r,rw), and the queue
// is under a lock by tickets.
#include <errno.h>
#include "ticket.h"

// With --spurious, dethart runs the program with a 1 here, in place of the file's 0: so the file has bytes for it.
volatile unsigned dethart_spurious __attribute__((section(".data"))) = 0;

struct __waiter {
    volatile unsigned woken;
    struct __waiter *volatile next;
};

int pthread_cond_init(pthread_cond_t *cond, const pthread_condattr_t *attr)
{
    (void)attr; // all clocks are one
    *cond = (pthread_cond_t)PTHREAD_COND_INITIALIZER;
    return 0;
}

int pthread_cond_destroy(pthread_cond_t *cond)
{
    return cond->first ? EBUSY : 0;
}

static void join_queue(pthread_cond_t *cond, struct __waiter *waiter)
{
    ticket_take(&cond->ticket);
    struct __waiter *volatile *end = &cond->first;
    while (*end)
        end = &(*end)->next;
    *end = waiter;
    ticket_free(&cond->ticket);
}

// Whether it was still there.
static bool leave_queue(pthread_cond_t *cond, struct __waiter *waiter)
{
    bool was_there = false;
    ticket_take(&cond->ticket);
    for (struct __waiter *volatile *at = &cond->first; *at && !was_there; at = &(*at)->next)
        if (*at == waiter) {
            *at = waiter->next;
            was_there = true;
            break;
        }
    ticket_free(&cond->ticket);
    return was_there;
}

// Whether a wait comes back in this round without a signal, as POSIX and C11 let it: with --spurious in about one round of sixteen. Which
// ones these are is the same in each run: so a plan, by which the waits begin in other rounds than by another one, has its own, and a
// recorded run has them again.
static bool comes_back_alone(void)
{
    return dethart_spurious && (round_number() * 2654435761u >> 16 & 15) == 0;
}

// Waits for a signal: 0. ECANCELED or ETIMEDOUT where that came before one.
static int await_signal(pthread_cond_t *cond, struct __waiter *waiter, const struct timespec *until)
{
    __kit_lets_others_begin();
    while (!waiter->woken) {
        int reason = 0;
        uint64_t now = __kit_wait_till(until);
        if (__kit_is_cancelled())
            reason = ECANCELED;
        else if (until && now >= __kit_round_of(until))
            reason = ETIMEDOUT;
        if (reason || comes_back_alone()) {
            if (leave_queue(cond, waiter))
                return reason;
            while (!waiter->woken) // a signal has it already
                __kit_wait_a_round();
        }
    }
    acquire_fence();
    return 0;
}

static int wait_until(pthread_cond_t *cond, pthread_mutex_t *mutex, const struct timespec *until)
{
    if (until && __kit_is_no_time(until))
        return EINVAL;
    if (!__kit_may_unlock(mutex))
        return EPERM;
    pthread_testcancel();
    struct __waiter waiter = { 0, 0 };
    join_queue(cond, &waiter);
    unsigned depth = mutex->depth;
    mutex->depth = 0;
    pthread_mutex_unlock(mutex);
    int reason = await_signal(cond, &waiter, until);
    pthread_mutex_lock(mutex);
    mutex->depth = depth;
    if (reason == ECANCELED)
        pthread_testcancel();
    return reason;
}

int pthread_cond_wait(pthread_cond_t *cond, pthread_mutex_t *mutex)
{
    return wait_until(cond, mutex, 0);
}

int pthread_cond_timedwait(pthread_cond_t *cond, pthread_mutex_t *mutex, const struct timespec *until)
{
    return wait_until(cond, mutex, until);
}

int pthread_cond_clockwait(pthread_cond_t *cond, pthread_mutex_t *mutex, clockid_t clock, const struct timespec *until)
{
    return __kit_is_clock(clock) ? wait_until(cond, mutex, until) : EINVAL;
}

int pthread_cond_signal(pthread_cond_t *cond)
{
    __kit_end_with_others();
    if (!cond->first)
        return 0;
    ticket_take(&cond->ticket);
    struct __waiter *waiter = cond->first;
    if (waiter)
        cond->first = waiter->next;
    ticket_free(&cond->ticket);
    if (waiter)
        store_release(&waiter->woken, 1);
    return 0;
}

int pthread_cond_broadcast(pthread_cond_t *cond)
{
    __kit_end_with_others();
    if (!cond->first)
        return 0;
    ticket_take(&cond->ticket);
    struct __waiter *waiter = cond->first;
    cond->first = 0;
    ticket_free(&cond->ticket);
    while (waiter) {
        struct __waiter *next = waiter->next;
        store_release(&waiter->woken, 1);
        waiter = next;
    }
    return 0;
}
