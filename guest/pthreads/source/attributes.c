// Attributes. What makes no difference here is taken; what can't be had is refused with ENOTSUP.
#include <errno.h>
#include "kit.h"

// Where an attribute has two values, and the kit can do the first one alone.
static int first_or_unsupported(int value, int last)
{
    return value == 0 ? 0 : value > 0 && value <= last ? ENOTSUP : EINVAL;
}

// There is one process, so what is shared by several and what isn't are the same.
static int set_sharing(int *to, int shared)
{
    if (shared != PTHREAD_PROCESS_PRIVATE && shared != PTHREAD_PROCESS_SHARED)
        return EINVAL;
    *to = shared;
    return 0;
}

static int get_sharing(int from, int *shared)
{
    *shared = from;
    return 0;
}

// Threads. The stacks are as large as layout.ld makes them, whatever size is asked for.

int pthread_attr_init(pthread_attr_t *attr) { *attr = (pthread_attr_t){ PTHREAD_CREATE_JOINABLE, PTHREAD_STACK_MIN }; return 0; }
int pthread_attr_destroy(pthread_attr_t *attr) { (void)attr; return 0; }
int pthread_attr_getdetachstate(const pthread_attr_t *attr, int *state) { *state = attr->detached; return 0; }

int pthread_attr_setdetachstate(pthread_attr_t *attr, int state)
{
    if (state != PTHREAD_CREATE_JOINABLE && state != PTHREAD_CREATE_DETACHED)
        return EINVAL;
    attr->detached = state;
    return 0;
}

int pthread_attr_setstacksize(pthread_attr_t *attr, size_t size)
{
    if (size < PTHREAD_STACK_MIN)
        return EINVAL;
    attr->stack = size;
    return 0;
}

int pthread_attr_getstacksize(const pthread_attr_t *attr, size_t *size) { *size = attr->stack; return 0; }
int pthread_attr_setguardsize(pthread_attr_t *attr, size_t size) { (void)attr; (void)size; return 0; }
int pthread_attr_getguardsize(const pthread_attr_t *attr, size_t *size) { (void)attr; *size = sizeof(uint64_t); return 0; }
int pthread_attr_setscope(pthread_attr_t *attr, int scope) { (void)attr; return first_or_unsupported(scope, PTHREAD_SCOPE_PROCESS); }
int pthread_attr_getscope(const pthread_attr_t *attr, int *scope) { (void)attr; *scope = PTHREAD_SCOPE_SYSTEM; return 0; }

int pthread_attr_setinheritsched(pthread_attr_t *attr, int inherit)
{
    (void)attr;
    return first_or_unsupported(inherit, PTHREAD_EXPLICIT_SCHED);
}

int pthread_attr_getinheritsched(const pthread_attr_t *attr, int *inherit)
{
    (void)attr;
    *inherit = PTHREAD_INHERIT_SCHED;
    return 0;
}

// All threads have the one policy, and its one priority.

int pthread_attr_setschedpolicy(pthread_attr_t *attr, int policy) { (void)attr; return first_or_unsupported(policy, SCHED_RR); }
int pthread_attr_getschedpolicy(const pthread_attr_t *attr, int *policy) { (void)attr; *policy = SCHED_OTHER; return 0; }

int pthread_attr_setschedparam(pthread_attr_t *attr, const struct sched_param *param)
{
    (void)attr;
    return param->sched_priority == 0 ? 0 : ENOTSUP;
}

int pthread_attr_getschedparam(const pthread_attr_t *attr, struct sched_param *param)
{
    (void)attr;
    param->sched_priority = 0;
    return 0;
}

int pthread_setschedparam(pthread_t thread, int policy, const struct sched_param *param)
{
    if (!__kit_thread_of(thread))
        return ESRCH;
    return param->sched_priority == 0 ? first_or_unsupported(policy, SCHED_RR) : ENOTSUP;
}

int pthread_getschedparam(pthread_t thread, int *policy, struct sched_param *param)
{
    if (!__kit_thread_of(thread))
        return ESRCH;
    *policy = SCHED_OTHER;
    param->sched_priority = 0;
    return 0;
}

int pthread_setschedprio(pthread_t thread, int priority)
{
    if (!__kit_thread_of(thread))
        return ESRCH;
    return priority == 0 ? 0 : ENOTSUP;
}

// Mutexes. None is robust, so none is ever inconsistent.

int pthread_mutex_consistent(pthread_mutex_t *mutex) { (void)mutex; return EINVAL; }
int pthread_mutexattr_init(pthread_mutexattr_t *attr) { *attr = (pthread_mutexattr_t){ PTHREAD_MUTEX_DEFAULT, 0 }; return 0; }
int pthread_mutexattr_destroy(pthread_mutexattr_t *attr) { (void)attr; return 0; }
int pthread_mutexattr_gettype(const pthread_mutexattr_t *attr, int *kind) { *kind = attr->kind; return 0; }

int pthread_mutexattr_settype(pthread_mutexattr_t *attr, int kind)
{
    if (kind != PTHREAD_MUTEX_NORMAL && kind != PTHREAD_MUTEX_RECURSIVE && kind != PTHREAD_MUTEX_ERRORCHECK)
        return EINVAL;
    attr->kind = kind;
    return 0;
}

int pthread_mutexattr_setpshared(pthread_mutexattr_t *attr, int shared) { return set_sharing(&attr->shared, shared); }
int pthread_mutexattr_getpshared(const pthread_mutexattr_t *attr, int *shared) { return get_sharing(attr->shared, shared); }

__KIT_WARNING(pthread_mutexattr_setrobust, "no mutex is robust here, so PTHREAD_MUTEX_ROBUST fails")
int pthread_mutexattr_setrobust(pthread_mutexattr_t *attr, int robust)
{
    (void)attr;
    return first_or_unsupported(robust, PTHREAD_MUTEX_ROBUST);
}

int pthread_mutexattr_getrobust(const pthread_mutexattr_t *attr, int *robust)
{
    (void)attr;
    *robust = PTHREAD_MUTEX_STALLED;
    return 0;
}

int pthread_mutexattr_getprotocol(const pthread_mutexattr_t *attr, int *protocol)
{
    (void)attr;
    *protocol = PTHREAD_PRIO_NONE;
    return 0;
}

int pthread_mutexattr_setprotocol(pthread_mutexattr_t *attr, int protocol)
{
    (void)attr;
    return first_or_unsupported(protocol, PTHREAD_PRIO_PROTECT);
}

// Conditions. All clocks are one.

int pthread_condattr_init(pthread_condattr_t *attr) { *attr = (pthread_condattr_t){ CLOCK_REALTIME, 0 }; return 0; }
int pthread_condattr_destroy(pthread_condattr_t *attr) { (void)attr; return 0; }
int pthread_condattr_getclock(const pthread_condattr_t *attr, clockid_t *clock) { *clock = attr->clock; return 0; }

int pthread_condattr_setclock(pthread_condattr_t *attr, clockid_t clock)
{
    if (clock != CLOCK_REALTIME && clock != CLOCK_MONOTONIC)
        return EINVAL;
    attr->clock = clock;
    return 0;
}

int pthread_condattr_setpshared(pthread_condattr_t *attr, int shared) { return set_sharing(&attr->shared, shared); }
int pthread_condattr_getpshared(const pthread_condattr_t *attr, int *shared) { return get_sharing(attr->shared, shared); }

// Read-write locks and barriers. Who is preferred is a matter of schedule: readers are, whatever is asked for.

int pthread_rwlockattr_init(pthread_rwlockattr_t *attr) { *attr = (pthread_rwlockattr_t){ PTHREAD_RWLOCK_DEFAULT_NP, 0 }; return 0; }
int pthread_rwlockattr_getkind_np(const pthread_rwlockattr_t *attr, int *kind) { *kind = attr->kind; return 0; }

int pthread_rwlockattr_setkind_np(pthread_rwlockattr_t *attr, int kind)
{
    if (kind < PTHREAD_RWLOCK_PREFER_READER_NP || kind > PTHREAD_RWLOCK_PREFER_WRITER_NONRECURSIVE_NP)
        return EINVAL;
    attr->kind = kind;
    return 0;
}

int pthread_rwlockattr_destroy(pthread_rwlockattr_t *attr) { (void)attr; return 0; }
int pthread_rwlockattr_setpshared(pthread_rwlockattr_t *attr, int shared) { return set_sharing(&attr->shared, shared); }
int pthread_rwlockattr_getpshared(const pthread_rwlockattr_t *attr, int *shared) { return get_sharing(attr->shared, shared); }
int pthread_barrierattr_init(pthread_barrierattr_t *attr) { *attr = (pthread_barrierattr_t){ 0 }; return 0; }
int pthread_barrierattr_destroy(pthread_barrierattr_t *attr) { (void)attr; return 0; }
int pthread_barrierattr_setpshared(pthread_barrierattr_t *attr, int shared) { return set_sharing(&attr->shared, shared); }
int pthread_barrierattr_getpshared(const pthread_barrierattr_t *attr, int *shared) { return get_sharing(attr->shared, shared); }
