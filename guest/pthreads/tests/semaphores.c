// A semaphore of two lets two in at a time, and one of none counts those that are done.
#include <assert.h>
#include <semaphore.h>
#include <stdio.h>
#include "workers.h"

enum { AT_ONCE = 2, TURNS = 4 };

static sem_t room, done;
static int inside;

static void *enters(void *nothing)
{
    for (int i = 0; i < TURNS; i++) {
        sem_wait(&room);
        assert(__atomic_add_fetch(&inside, 1, __ATOMIC_RELAXED) <= AT_ONCE);
        __atomic_sub_fetch(&inside, 1, __ATOMIC_RELAXED);
        sem_post(&room);
    }
    sem_post(&done);
    return nothing;
}

int main(void)
{
    pthread_t threads[MOST_WORKERS];
    int left;
    sem_init(&room, 0, AT_ONCE);
    sem_init(&done, 0, 0);
    for (int i = 0; i < workers(); i++)
        pthread_create(&threads[i], NULL, enters, NULL);
    for (int i = 0; i < workers(); i++)
        sem_wait(&done);
    for (int i = 0; i < workers(); i++)
        pthread_join(threads[i], NULL);
    sem_getvalue(&room, &left);
    assert(left == AT_ONCE && sem_trywait(&done) == -1);
    puts("all were in");
    return 0;
}
