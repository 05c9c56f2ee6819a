// Spin locks: locks by tickets, and ticket.h says how they order.
#include <errno.h>
#include "ticket.h"

int pthread_spin_init(pthread_spinlock_t *lock, int shared)
{
    (void)shared;
    *lock = (pthread_spinlock_t){ 0, 0 };
    return 0;
}

int pthread_spin_destroy(pthread_spinlock_t *lock)
{
    return ticket_is_free(lock) ? 0 : EBUSY;
}

int pthread_spin_lock(pthread_spinlock_t *lock)
{
    __kit_end_with_others();
    ticket_take(lock);
    return 0;
}

int pthread_spin_trylock(pthread_spinlock_t *lock)
{
    __kit_end_with_others();
    return ticket_try(lock) ? 0 : EBUSY;
}

int pthread_spin_unlock(pthread_spinlock_t *lock)
{
    if (ticket_is_free(lock))
        return EPERM;
    ticket_free(lock);
    return 0;
}
