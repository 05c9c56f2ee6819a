// A place that holds one thing: one thread waits until it is free and fills it, the other until it is full and empties it.
#include <assert.h>
#include <pthread.h>
#include <stdio.h>

static pthread_mutex_t lock;
static pthread_cond_t is_empty, is_full;
static int things = 1;

static void *fills(void *nothing)
{
    pthread_mutex_lock(&lock);
    while (things > 0)
        pthread_cond_wait(&is_empty, &lock);
    things++;
    pthread_mutex_unlock(&lock);
    pthread_cond_signal(&is_full);
    return nothing;
}

static void *empties(void *nothing)
{
    pthread_mutex_lock(&lock);
    while (things == 0)
        pthread_cond_wait(&is_full, &lock);
    things--;
    pthread_mutex_unlock(&lock);
    pthread_cond_signal(&is_empty);
    return nothing;
}

int main(void)
{
    pthread_t filler, emptier;
    pthread_mutex_init(&lock, NULL);
    pthread_cond_init(&is_empty, NULL);
    pthread_cond_init(&is_full, NULL);
    pthread_create(&filler, NULL, fills, NULL);
    pthread_create(&emptier, NULL, empties, NULL);
    pthread_join(filler, NULL);
    pthread_join(emptier, NULL);
    assert(things == 1);
    assert(pthread_cond_destroy(&is_empty) == 0 && pthread_cond_destroy(&is_full) == 0 && pthread_mutex_destroy(&lock) == 0);
    puts("handed over");
    return 0;
}
