// Bad use is told as POSIX says it may.
#include <assert.h>
#include <errno.h>
#include <pthread.h>
#include <semaphore.h>
#include <signal.h>
#include <stdio.h>
#include <string.h>
#include <time.h>
#include <unistd.h>

static pthread_mutex_t mutex;
static pthread_cond_t cond = PTHREAD_COND_INITIALIZER;
static pthread_rwlock_t rwlock = PTHREAD_RWLOCK_INITIALIZER;
static pthread_barrier_t barrier;
static pthread_spinlock_t spinlock;
static sem_t sem;
static volatile int stage;

static void *nothing(void *argument) { return argument; }

static void *sleeps(void *argument)
{
    sleep(1);
    return argument;
}

static pthread_t begin(void *(*run)(void *))
{
    pthread_t thread;
    assert(pthread_create(&thread, NULL, run, NULL) == 0);
    return thread;
}

static struct timespec soon(void)
{
    struct timespec time;
    clock_gettime(CLOCK_REALTIME, &time);
    time.tv_sec++;
    return time;
}

static void threads(void)
{
    pthread_t thread = begin(nothing);
    assert(pthread_join(thread, NULL) == 0);
    assert(pthread_join(thread, NULL) == ESRCH); // joined twice
    assert(pthread_detach(thread) == ESRCH && pthread_cancel(thread) == ESRCH && pthread_kill(thread, 0) == ESRCH);
    assert(pthread_join(pthread_self(), NULL) == EDEADLK);
    assert(pthread_join(0, NULL) == ESRCH);
    thread = begin(sleeps);
    assert(pthread_kill(thread, 0) == 0 && pthread_kill(thread, SIGUSR1) == EINVAL);
    assert(pthread_tryjoin_np(thread, NULL) == EBUSY);
    assert(pthread_detach(thread) == 0);
    assert(pthread_detach(thread) == EINVAL && pthread_join(thread, NULL) == EINVAL);
    assert(pthread_setcancelstate(7, NULL) == EINVAL && pthread_setcanceltype(7, NULL) == EINVAL);
    sleep(2);
}

static void *locks(void *kind)
{
    pthread_mutex_lock(&mutex);
    stage = 1;
    while (stage == 1)
        sched_yield();
    pthread_mutex_unlock(&mutex);
    return kind;
}

static void mutexes(int kind)
{
    pthread_mutexattr_t attr;
    struct timespec until;
    assert(pthread_mutexattr_init(&attr) == 0 && pthread_mutexattr_settype(&attr, kind) == 0);
    assert(pthread_mutexattr_settype(&attr, 7) == EINVAL);
    assert(pthread_mutexattr_setrobust(&attr, PTHREAD_MUTEX_ROBUST) == ENOTSUP);
    int robust = -1, protocol = -1;
    assert(pthread_mutexattr_getrobust(&attr, &robust) == 0 && robust == PTHREAD_MUTEX_STALLED);
    assert(pthread_mutexattr_getprotocol(&attr, &protocol) == 0 && protocol == PTHREAD_PRIO_NONE);
    assert(pthread_mutex_consistent(&mutex) == EINVAL); // it isn't robust
    assert(pthread_mutex_init(&mutex, &attr) == 0);
    assert(pthread_mutex_unlock(&mutex) == EPERM); // not locked
    assert(pthread_cond_wait(&cond, &mutex) == EPERM);
    stage = 0;
    pthread_t thread = begin(locks);
    while (stage == 0)
        sched_yield();
    if (kind != PTHREAD_MUTEX_NORMAL)
        assert(pthread_mutex_unlock(&mutex) == EPERM); // another's
    assert(pthread_mutex_trylock(&mutex) == EBUSY && pthread_mutex_destroy(&mutex) == EBUSY);
    until = soon();
    assert(pthread_mutex_timedlock(&mutex, &until) == ETIMEDOUT);
    until.tv_nsec = 1000000000;
    assert(pthread_mutex_timedlock(&mutex, &until) == EINVAL);
    stage = 2;
    assert(pthread_join(thread, NULL) == 0);
    assert(pthread_mutex_lock(&mutex) == 0);
    if (kind == PTHREAD_MUTEX_ERRORCHECK)
        assert(pthread_mutex_lock(&mutex) == EDEADLK && pthread_mutex_trylock(&mutex) == EBUSY);
    if (kind == PTHREAD_MUTEX_RECURSIVE)
        assert(pthread_mutex_lock(&mutex) == 0 && pthread_mutex_unlock(&mutex) == 0);
    until = soon();
    assert(pthread_cond_timedwait(&cond, &mutex, &until) == ETIMEDOUT);
    assert(pthread_mutex_unlock(&mutex) == 0 && pthread_mutex_unlock(&mutex) == EPERM);
    assert(pthread_mutex_destroy(&mutex) == 0 && pthread_mutex_destroy(&mutex) == EINVAL && pthread_mutex_lock(&mutex) == EINVAL);
}

static void *waits(void *argument)
{
    pthread_mutex_lock(&mutex);
    stage = 1;
    while (stage == 1)
        pthread_cond_wait(&cond, &mutex);
    pthread_mutex_unlock(&mutex);
    return argument;
}

static void conditions(void)
{
    pthread_mutex_init(&mutex, NULL);
    stage = 0;
    pthread_t thread = begin(waits);
    for (int seen = 0; seen == 0;) { // until it waits, since it sets the stage under the lock
        pthread_mutex_lock(&mutex);
        seen = stage;
        pthread_mutex_unlock(&mutex);
    }
    assert(pthread_cond_destroy(&cond) == EBUSY);
    pthread_mutex_lock(&mutex);
    stage = 2;
    pthread_cond_signal(&cond);
    pthread_mutex_unlock(&mutex);
    pthread_join(thread, NULL);
    assert(pthread_cond_destroy(&cond) == 0);
}

static void *reads(void *argument)
{
    assert(pthread_rwlock_rdlock(&rwlock) == 0);
    assert(pthread_rwlock_unlock(&rwlock) == 0);
    return argument;
}

static void others(void)
{
    int value;
    assert(pthread_rwlock_unlock(&rwlock) == EPERM);
    assert(pthread_rwlock_wrlock(&rwlock) == 0);
    assert(pthread_rwlock_wrlock(&rwlock) == EDEADLK && pthread_rwlock_rdlock(&rwlock) == EDEADLK);
    assert(pthread_rwlock_tryrdlock(&rwlock) == EBUSY && pthread_rwlock_trywrlock(&rwlock) == EBUSY);
    assert(pthread_rwlock_destroy(&rwlock) == EBUSY);
    pthread_t thread = begin(reads);
    sleep(1);
    assert(pthread_rwlock_unlock(&rwlock) == 0);
    assert(pthread_join(thread, NULL) == 0 && pthread_rwlock_destroy(&rwlock) == 0);

    assert(pthread_barrier_init(&barrier, NULL, 0) == EINVAL && pthread_barrier_init(&barrier, NULL, 1) == 0);
    assert(pthread_barrier_wait(&barrier) == PTHREAD_BARRIER_SERIAL_THREAD && pthread_barrier_destroy(&barrier) == 0);
    assert(pthread_barrier_wait(&barrier) == EINVAL && pthread_barrier_destroy(&barrier) == EINVAL);

    assert(pthread_spin_init(&spinlock, PTHREAD_PROCESS_PRIVATE) == 0 && pthread_spin_unlock(&spinlock) == EPERM);
    assert(pthread_spin_lock(&spinlock) == 0 && pthread_spin_trylock(&spinlock) == EBUSY && pthread_spin_destroy(&spinlock) == EBUSY);
    assert(pthread_spin_unlock(&spinlock) == 0 && pthread_spin_destroy(&spinlock) == 0);

    assert(sem_init(&sem, 0, 0x80000000u) == -1 && errno == EINVAL);
    assert(sem_init(&sem, 0, SEM_VALUE_MAX) == 0 && sem_post(&sem) == -1 && errno == EOVERFLOW);
    assert(sem_init(&sem, 0, 0) == 0 && sem_trywait(&sem) == -1 && errno == EAGAIN);
    struct timespec until = soon();
    assert(sem_timedwait(&sem, &until) == -1 && errno == ETIMEDOUT && sem_getvalue(&sem, &value) == 0 && value == 0);
    assert(sem_open("/name", 0) == SEM_FAILED && errno == ENOSYS);

    pthread_key_t key;
    assert(pthread_key_create(&key, NULL) == 0 && pthread_key_delete(key) == 0 && pthread_key_delete(key) == EINVAL);
    assert(pthread_setspecific(key, &key) == EINVAL && pthread_getspecific(key) == NULL);
    assert(fopen("name", "r") == NULL && errno == ENOENT && write(7, "x", 1) == -1 && errno == EBADF);
}

int main(void)
{
    threads();
    mutexes(PTHREAD_MUTEX_NORMAL);
    mutexes(PTHREAD_MUTEX_RECURSIVE);
    mutexes(PTHREAD_MUTEX_ERRORCHECK);
    conditions();
    others();
    puts("told");
    return 0;
}
