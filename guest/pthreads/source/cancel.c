// Cancellation, which acts where a thread waits, reads, writes or asks for it; and the functions that clean up.
//
// pthread_cancel is a release store (fence rw,w; sw), and what sees it an acquire load (lw; fence r,rw).
#include <errno.h>
#include "kit.h"

_Thread_local struct __cleanup *__kit_cleanups;
static _Thread_local int __kit_state = PTHREAD_CANCEL_ENABLE, __kit_type = PTHREAD_CANCEL_DEFERRED;

bool __kit_is_cancelled(void)
{
    return __kit_self->cancelled && __kit_state == PTHREAD_CANCEL_ENABLE;
}

void pthread_testcancel(void)
{
    __kit_end_with_others();
    if (__kit_self && __kit_is_cancelled()) {
        acquire_fence();
        __kit_state = PTHREAD_CANCEL_DISABLE;
        pthread_exit(PTHREAD_CANCELED);
    }
}

// 'Asynchronous' is at once only where a thread cancels itself: no hart can be stopped from outside.
static void act_at_once(void)
{
    if (__kit_type == PTHREAD_CANCEL_ASYNCHRONOUS)
        pthread_testcancel();
}

int pthread_cancel(pthread_t handle)
{
    struct __kit_thread *thread = __kit_thread_of(handle);
    if (!thread)
        return ESRCH;
    store_release(&thread->cancelled, 1);
    if (thread == __kit_self)
        act_at_once();
    return 0;
}

int pthread_setcancelstate(int new, int *old)
{
    if (new != PTHREAD_CANCEL_ENABLE && new != PTHREAD_CANCEL_DISABLE)
        return EINVAL;
    if (old)
        *old = __kit_state;
    __kit_state = new;
    act_at_once();
    return 0;
}

int pthread_setcanceltype(int new, int *old)
{
    if (new != PTHREAD_CANCEL_DEFERRED && new != PTHREAD_CANCEL_ASYNCHRONOUS)
        return EINVAL;
    if (old)
        *old = __kit_type;
    __kit_type = new;
    act_at_once();
    return 0;
}

void __cleanup_push(struct __cleanup *cleanup)
{
    cleanup->outer = __kit_cleanups;
    __kit_cleanups = cleanup;
}

void __cleanup_pop(struct __cleanup *cleanup, int execute)
{
    __kit_cleanups = cleanup->outer;
    if (execute)
        cleanup->run(cleanup->argument);
}
