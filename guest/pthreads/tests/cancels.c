// Threads are cancelled where they wait: for a condition, a semaphore, a thread, a time, a signal of the system. Their cleanup
// handlers run, the mutex is theirs again in them, and the one that was to be joined can still be. For 3 harts.
#include <assert.h>
#include <pthread.h>
#include <semaphore.h>
#include <signal.h>
#include <stdio.h>
#include <unistd.h>

static pthread_mutex_t mutex = PTHREAD_MUTEX_INITIALIZER;
static pthread_cond_t never = PTHREAD_COND_INITIALIZER;
static sem_t none;
static pthread_t sleeper;
static int cleaned;

static void unlocks(void *at)
{
    cleaned++;
    assert(pthread_mutex_unlock(at) == 0);
}

static void counts(void *at)
{
    ++*(int *)at;
}

static void *in_condition(void *argument)
{
    pthread_mutex_lock(&mutex);
    pthread_cleanup_push(unlocks, &mutex);
    for (;;)
        pthread_cond_wait(&never, &mutex);
    pthread_cleanup_pop(1);
    return argument;
}

static void *in_semaphore(void *argument)
{
    pthread_cleanup_push(counts, &cleaned);
    sem_wait(&none);
    pthread_cleanup_pop(1);
    return argument;
}

static void *in_join(void *argument)
{
    pthread_cleanup_push(counts, &cleaned);
    pthread_join(sleeper, NULL);
    pthread_cleanup_pop(1);
    return argument;
}

static void *in_sleep(void *argument)
{
    pthread_cleanup_push(counts, &cleaned);
    sleep(1000);
    pthread_cleanup_pop(1);
    return argument;
}

static void *in_pause(void *argument)
{
    pthread_cleanup_push(counts, &cleaned);
    for (;;)
        pause();
    pthread_cleanup_pop(1);
    return argument;
}

static void *in_sigwait(void *argument)
{
    sigset_t all;
    int number;
    sigfillset(&all);
    pthread_cleanup_push(counts, &cleaned);
    sigwait(&all, &number);
    pthread_cleanup_pop(1);
    return argument;
}

static void *sleeps(void *argument)
{
    sleep(2);
    return argument;
}

static void cancel(void *(*run)(void *))
{
    pthread_t thread;
    void *result;
    assert(pthread_create(&thread, NULL, run, NULL) == 0);
    usleep(300000);
    assert(pthread_cancel(thread) == 0 && pthread_join(thread, &result) == 0 && result == PTHREAD_CANCELED);
}

int main(void)
{
    sem_init(&none, 0, 0);
    cancel(in_condition);
    cancel(in_semaphore);
    cancel(in_sleep);
    cancel(in_pause);
    cancel(in_sigwait);
    assert(pthread_create(&sleeper, NULL, sleeps, &none) == 0);
    cancel(in_join);
    void *result;
    assert(pthread_join(sleeper, &result) == 0 && result == &none);
    assert(cleaned == 6 && pthread_cond_destroy(&never) == 0 && sem_destroy(&none) == 0);
    puts("cancelled");
    return 0;
}
