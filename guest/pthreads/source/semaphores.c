// Semaphores. Who waits takes the value when it finds it, in no order, as with glibc.
//
// By the manual's table A.6: to wait is lr.w.aq, sc.w (acquire RMW), to post amoadd.w.rl (release RMW).
#include <errno.h>
#include <semaphore.h>
#include "kit.h"

static int fails_with(int error)
{
    errno = error;
    return -1;
}

int sem_init(sem_t *sem, int shared, unsigned value)
{
    (void)shared;
    if (value > SEM_VALUE_MAX)
        return fails_with(EINVAL);
    *sem = (sem_t){ value, 0 };
    return 0;
}

int sem_destroy(sem_t *sem)
{
    return sem->waiting ? fails_with(EBUSY) : 0;
}

int sem_getvalue(sem_t *sem, int *value)
{
    *value = (int)sem->value;
    return 0;
}

static bool take_one(sem_t *sem)
{
    for (unsigned now; (now = sem->value) > 0;)
        if (change_acquire(&sem->value, now, now - 1))
            return true;
    return false;
}

int sem_trywait(sem_t *sem)
{
    __kit_end_with_others();
    return take_one(sem) ? 0 : fails_with(EAGAIN);
}

// Waits until it has one: 0, or why it has none.
static int await_one(sem_t *sem, const struct timespec *until)
{
    int reason = 0;
    __kit_lets_others_begin();
    add_relaxed(&sem->waiting, 1);
    while (!reason && !take_one(sem)) {
        uint64_t now = __kit_wait_till(until);
        if (__kit_is_cancelled())
            reason = ECANCELED;
        else if (until && now >= __kit_round_of(until))
            reason = ETIMEDOUT;
    }
    add_relaxed(&sem->waiting, -1);
    return reason;
}

static int wait_until(sem_t *sem, const struct timespec *until)
{
    pthread_testcancel();
    if (take_one(sem))
        return 0;
    if (until && __kit_is_no_time(until))
        return fails_with(EINVAL);
    int reason = await_one(sem, until);
    if (reason == ECANCELED)
        pthread_testcancel();
    return reason ? fails_with(reason) : 0;
}

int sem_wait(sem_t *sem) { return wait_until(sem, 0); }
int sem_timedwait(sem_t *sem, const struct timespec *until) { return wait_until(sem, until); }

int sem_clockwait(sem_t *sem, clockid_t clock, const struct timespec *until)
{
    return __kit_is_clock(clock) ? wait_until(sem, until) : fails_with(EINVAL);
}

int sem_post(sem_t *sem)
{
    if (sem->value == SEM_VALUE_MAX)
        return fails_with(EOVERFLOW);
    add_release(&sem->value, 1);
    return 0;
}

// Those with names belong to several processes, and there is one.
sem_t *sem_open(const char *name, int flags, ...)
{
    (void)name;
    (void)flags;
    errno = ENOSYS;
    return SEM_FAILED;
}

int sem_close(sem_t *sem) { (void)sem; return fails_with(EINVAL); }
int sem_unlink(const char *name) { (void)name; return fails_with(ENOENT); }
