// Mutexes: a lock by tickets (ticket.h says how it orders), and in all kinds but the normal one who holds it.
//
// The owner is a plain store of the thread that holds the mutex; who reads its own name there has stored it itself. A normal mutex
// may be given back by another thread than the one that took it, as with glibc: POSIX leaves that open.
#include <errno.h>
#include "ticket.h"

enum { DESTROYED = -1 };

int pthread_mutex_init(pthread_mutex_t *mutex, const pthread_mutexattr_t *attr)
{
    *mutex = (pthread_mutex_t){ .kind = attr ? attr->kind : PTHREAD_MUTEX_DEFAULT };
    return 0;
}

int pthread_mutex_destroy(pthread_mutex_t *mutex)
{
    if (mutex->kind == DESTROYED)
        return EINVAL;
    if (!ticket_is_free(&mutex->ticket))
        return EBUSY;
    mutex->kind = DESTROYED;
    return 0;
}

// What can be said before waiting: an error, or that the caller, which has it already, has it once more.
static int again(pthread_mutex_t *mutex, bool *has_it)
{
    *has_it = false;
    if (mutex->kind == PTHREAD_MUTEX_NORMAL)
        return 0;
    if (mutex->kind == DESTROYED)
        return EINVAL;
    if (mutex->owner != __kit_handle)
        return 0;
    if (mutex->kind == PTHREAD_MUTEX_ERRORCHECK)
        return EDEADLK;
    if (mutex->depth + 1 == 0)
        return EAGAIN;
    mutex->depth++;
    *has_it = true;
    return 0;
}

static void note_owner(pthread_mutex_t *mutex)
{
    if (mutex->kind != PTHREAD_MUTEX_NORMAL)
        mutex->owner = __kit_handle;
}

int pthread_mutex_lock(pthread_mutex_t *mutex)
{
    bool has_it;
    __kit_end_with_others();
    int error = again(mutex, &has_it);
    if (error || has_it)
        return error;
    ticket_take(&mutex->ticket);
    note_owner(mutex);
    return 0;
}

int pthread_mutex_trylock(pthread_mutex_t *mutex)
{
    bool has_it;
    __kit_end_with_others();
    int error = again(mutex, &has_it);
    if (error || has_it)
        return error == EDEADLK ? EBUSY : error;
    if (!ticket_try(&mutex->ticket))
        return EBUSY;
    note_owner(mutex);
    return 0;
}

// It draws no ticket, since none can be given back: so it comes in when nobody waits.
int pthread_mutex_timedlock(pthread_mutex_t *mutex, const struct timespec *until)
{
    bool has_it;
    __kit_end_with_others();
    int error = again(mutex, &has_it);
    if (error || has_it)
        return error;
    while (!ticket_try(&mutex->ticket)) {
        if (__kit_is_no_time(until))
            return EINVAL;
        __kit_lets_others_begin();
        if (round_number() >= __kit_round_of(until))
            return ETIMEDOUT;
        __kit_end_with_others();
    }
    note_owner(mutex);
    return 0;
}

int pthread_mutex_clocklock(pthread_mutex_t *mutex, clockid_t clock, const struct timespec *until)
{
    return __kit_is_clock(clock) ? pthread_mutex_timedlock(mutex, until) : EINVAL;
}

bool __kit_may_unlock(const pthread_mutex_t *mutex)
{
    return mutex->kind == PTHREAD_MUTEX_NORMAL ? !ticket_is_free(&mutex->ticket) : mutex->owner == __kit_handle;
}

int pthread_mutex_unlock(pthread_mutex_t *mutex)
{
    if (mutex->kind == DESTROYED)
        return EINVAL;
    if (!__kit_may_unlock(mutex))
        return EPERM;
    if (mutex->depth) {
        mutex->depth--;
        return 0;
    }
    if (mutex->kind != PTHREAD_MUTEX_NORMAL)
        mutex->owner = 0;
    ticket_free(&mutex->ticket);
    return 0;
}
