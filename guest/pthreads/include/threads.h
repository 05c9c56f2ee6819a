// Threads of C11, over those of POSIX.
#ifndef DETHART_THREADS_H
#define DETHART_THREADS_H

#include <errno.h>
#include <pthread.h>
#include <stdint.h>
#include <time.h>

#ifndef __cplusplus
#define thread_local _Thread_local
#endif
#define ONCE_FLAG_INIT PTHREAD_ONCE_INIT
#define TSS_DTOR_ITERATIONS PTHREAD_DESTRUCTOR_ITERATIONS

typedef pthread_t thrd_t;
typedef pthread_mutex_t mtx_t;
typedef pthread_cond_t cnd_t;
typedef pthread_key_t tss_t;
typedef pthread_once_t once_flag;
typedef int (*thrd_start_t)(void *);
typedef void (*tss_dtor_t)(void *);

enum { mtx_plain = 0, mtx_recursive = 1, mtx_timed = 2 };
enum { thrd_success, thrd_busy, thrd_error, thrd_nomem, thrd_timedout };

// What POSIX's number of an error is in C11.
static inline int __thrd_result(int error)
{
    switch (error) {
    case 0: return thrd_success;
    case EBUSY: return thrd_busy;
    case EAGAIN: case ENOMEM: return thrd_nomem;
    case ETIMEDOUT: return thrd_timedout;
    default: return thrd_error;
    }
}

// A function that returns int in a0 is called as one that returns a pointer there.
static inline int thrd_create(thrd_t *thread, thrd_start_t run, void *argument)
{
    return __thrd_result(pthread_create(thread, 0, (void *(*)(void *))(void (*)(void))run, argument));
}

static inline int thrd_join(thrd_t thread, int *result)
{
    void *value = 0;
    int error = pthread_join(thread, &value);
    if (!error && result)
        *result = (int)(intptr_t)value;
    return __thrd_result(error);
}

static inline int thrd_detach(thrd_t thread) { return __thrd_result(pthread_detach(thread)); }
static inline thrd_t thrd_current(void) { return pthread_self(); }
static inline int thrd_equal(thrd_t a, thrd_t b) { return pthread_equal(a, b); }
static inline void thrd_yield(void) { sched_yield(); }
static inline int thrd_sleep(const struct timespec *time, struct timespec *left) { return nanosleep(time, left); }
__attribute__((noreturn)) static inline void thrd_exit(int result) { pthread_exit((void *)(intptr_t)result); }

static inline int mtx_init(mtx_t *mutex, int type)
{
    pthread_mutexattr_t attr = { type & mtx_recursive ? PTHREAD_MUTEX_RECURSIVE : PTHREAD_MUTEX_NORMAL, PTHREAD_PROCESS_PRIVATE };
    return __thrd_result(pthread_mutex_init(mutex, &attr));
}

static inline void mtx_destroy(mtx_t *mutex) { pthread_mutex_destroy(mutex); }
static inline int mtx_lock(mtx_t *mutex) { return __thrd_result(pthread_mutex_lock(mutex)); }
static inline int mtx_trylock(mtx_t *mutex) { return __thrd_result(pthread_mutex_trylock(mutex)); }
static inline int mtx_timedlock(mtx_t *mutex, const struct timespec *until) { return __thrd_result(pthread_mutex_timedlock(mutex, until)); }
static inline int mtx_unlock(mtx_t *mutex) { return __thrd_result(pthread_mutex_unlock(mutex)); }

static inline int cnd_init(cnd_t *cond) { return __thrd_result(pthread_cond_init(cond, 0)); }
static inline void cnd_destroy(cnd_t *cond) { pthread_cond_destroy(cond); }
static inline int cnd_wait(cnd_t *cond, mtx_t *mutex) { return __thrd_result(pthread_cond_wait(cond, mutex)); }
static inline int cnd_timedwait(cnd_t *cond, mtx_t *mutex, const struct timespec *until) { return __thrd_result(pthread_cond_timedwait(cond, mutex, until)); }
static inline int cnd_signal(cnd_t *cond) { return __thrd_result(pthread_cond_signal(cond)); }
static inline int cnd_broadcast(cnd_t *cond) { return __thrd_result(pthread_cond_broadcast(cond)); }

static inline int tss_create(tss_t *key, tss_dtor_t destructor) { return __thrd_result(pthread_key_create(key, destructor)); }
static inline void tss_delete(tss_t key) { pthread_key_delete(key); }
static inline void *tss_get(tss_t key) { return pthread_getspecific(key); }
static inline int tss_set(tss_t key, void *value) { return __thrd_result(pthread_setspecific(key, value)); }

static inline void call_once(once_flag *flag, void (*run)(void)) { pthread_once(flag, run); }

#endif
