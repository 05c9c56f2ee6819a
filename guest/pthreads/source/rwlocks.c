// Read-write locks. A reader comes in wherever no writer is, as with glibc's default; writers come in by tickets.
//
// By the manual's table A.6:
//   read lock, write lock   lr.w.aq; sc.w             (acquire RMW)
//   end of a read lock      amoadd.w.rl               (release RMW)
//   end of a write lock     fence rw,w; sw            (release store)
#include <errno.h>
#include "ticket.h"

static const unsigned a_writer = 0xffffffff; // in `holders`, which else counts readers

int pthread_rwlock_init(pthread_rwlock_t *lock, const pthread_rwlockattr_t *attr)
{
    (void)attr;
    *lock = (pthread_rwlock_t)PTHREAD_RWLOCK_INITIALIZER;
    return 0;
}

int pthread_rwlock_destroy(pthread_rwlock_t *lock)
{
    return lock->holders || !ticket_is_free(&lock->writers) ? EBUSY : 0;
}

static inline int try_read(pthread_rwlock_t *lock)
{
    for (unsigned now; (now = lock->holders) != a_writer;) {
        if (now == a_writer - 1)
            return EAGAIN;
        if (change_acquire(&lock->holders, now, now + 1))
            return 0;
    }
    return EBUSY;
}

int pthread_rwlock_tryrdlock(pthread_rwlock_t *lock)
{
    __kit_end_with_others();
    return try_read(lock);
}

static __attribute__((noinline)) int await_no_writer(pthread_rwlock_t *lock, const struct timespec *until)
{
    int error;
    if (lock->writer == __kit_handle)
        return EDEADLK;
    if (until && __kit_is_no_time(until))
        return EINVAL;
    __kit_lets_others_begin();
    do {
        uint64_t now = __kit_wait_till(until);
        error = try_read(lock);
        if (error == EBUSY && until && now >= __kit_round_of(until))
            return ETIMEDOUT;
    } while (error == EBUSY);
    return error;
}

static inline int read_lock(pthread_rwlock_t *lock, const struct timespec *until)
{
    __kit_end_with_others();
    int error = try_read(lock);
    return error == EBUSY ? await_no_writer(lock, until) : error;
}

int pthread_rwlock_rdlock(pthread_rwlock_t *lock) { return read_lock(lock, 0); }
int pthread_rwlock_timedrdlock(pthread_rwlock_t *lock, const struct timespec *until) { return read_lock(lock, until); }

int pthread_rwlock_clockrdlock(pthread_rwlock_t *lock, clockid_t clock, const struct timespec *until)
{
    return __kit_is_clock(clock) ? read_lock(lock, until) : EINVAL;
}

int pthread_rwlock_trywrlock(pthread_rwlock_t *lock)
{
    __kit_end_with_others();
    if (!ticket_try(&lock->writers))
        return EBUSY;
    if (!change_acquire(&lock->holders, 0, a_writer)) {
        ticket_free(&lock->writers);
        return EBUSY;
    }
    lock->writer = __kit_handle;
    return 0;
}

int pthread_rwlock_wrlock(pthread_rwlock_t *lock)
{
    __kit_end_with_others();
    if (lock->writer == __kit_handle)
        return EDEADLK;
    ticket_take(&lock->writers);
    while (!change_acquire(&lock->holders, 0, a_writer)) {
        __kit_lets_others_begin();
        do
            __kit_wait_a_round();
        while (lock->holders);
    }
    lock->writer = __kit_handle;
    return 0;
}

// It draws no ticket, since none can be given back.
int pthread_rwlock_timedwrlock(pthread_rwlock_t *lock, const struct timespec *until)
{
    if (lock->writer == __kit_handle)
        return EDEADLK;
    while (pthread_rwlock_trywrlock(lock)) {
        if (__kit_is_no_time(until))
            return EINVAL;
        __kit_lets_others_begin();
        if (round_number() >= __kit_round_of(until))
            return ETIMEDOUT;
    }
    return 0;
}

int pthread_rwlock_clockwrlock(pthread_rwlock_t *lock, clockid_t clock, const struct timespec *until)
{
    return __kit_is_clock(clock) ? pthread_rwlock_timedwrlock(lock, until) : EINVAL;
}

int pthread_rwlock_unlock(pthread_rwlock_t *lock)
{
    if (lock->holders == 0)
        return EPERM;
    if (lock->holders != a_writer) {
        add_release(&lock->holders, -1);
        return 0;
    }
    if (lock->writer != __kit_handle)
        return EPERM;
    lock->writer = 0;
    ticket_free(&lock->writers); // first, since who sees no holder may destroy the lock; the next writer waits for that as well
    store_release(&lock->holders, 0);
    return 0;
}
