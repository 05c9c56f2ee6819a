// The locks that picolibc asks for, as malloc does.
#include <pthread.h>
#include <stdlib.h>

struct __lock { pthread_mutex_t mutex; };

struct __lock __lock___libc_recursive_mutex = { PTHREAD_RECURSIVE_MUTEX_INITIALIZER_NP };

void __retarget_lock_init(struct __lock **lock) { *lock = calloc(1, sizeof **lock); }
void __retarget_lock_close(struct __lock *lock) { free(lock); }
void __retarget_lock_acquire(struct __lock *lock) { pthread_mutex_lock(&lock->mutex); }
int __retarget_lock_try_acquire(struct __lock *lock) { return pthread_mutex_trylock(&lock->mutex) == 0; }
void __retarget_lock_release(struct __lock *lock) { pthread_mutex_unlock(&lock->mutex); }

void __retarget_lock_init_recursive(struct __lock **lock)
{
    __retarget_lock_init(lock);
    if (*lock)
        (*lock)->mutex.kind = PTHREAD_MUTEX_RECURSIVE;
}

void __retarget_lock_close_recursive(struct __lock *lock) { __retarget_lock_close(lock); }
void __retarget_lock_acquire_recursive(struct __lock *lock) { __retarget_lock_acquire(lock); }
int __retarget_lock_try_acquire_recursive(struct __lock *lock) { return __retarget_lock_try_acquire(lock); }
void __retarget_lock_release_recursive(struct __lock *lock) { __retarget_lock_release(lock); }
