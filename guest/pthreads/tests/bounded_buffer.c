// Main puts numbers into a buffer of three, the workers take them, with a condition for 'not full' and one for 'not empty'.
#include <stdio.h>
#include "workers.h"

enum { ROOM = 3, EACH = 5 };

static pthread_mutex_t lock = PTHREAD_MUTEX_INITIALIZER;
static pthread_cond_t not_full = PTHREAD_COND_INITIALIZER, not_empty = PTHREAD_COND_INITIALIZER;
static int buffer[ROOM], first, count, sums[MOST_WORKERS];

static void put(int number)
{
    pthread_mutex_lock(&lock);
    while (count == ROOM)
        pthread_cond_wait(&not_full, &lock);
    buffer[(first + count++) % ROOM] = number;
    pthread_cond_signal(&not_empty);
    pthread_mutex_unlock(&lock);
}

static int take(void)
{
    pthread_mutex_lock(&lock);
    while (count == 0)
        pthread_cond_wait(&not_empty, &lock);
    int number = buffer[first];
    first = (first + 1) % ROOM;
    count--;
    pthread_cond_signal(&not_full);
    pthread_mutex_unlock(&lock);
    return number;
}

static void *takes(void *me)
{
    for (int i = 0; i < EACH; i++)
        sums[(long)me] += take();
    return NULL;
}

int main(void)
{
    pthread_t threads[MOST_WORKERS];
    int all = 0;
    for (long i = 0; i < workers(); i++)
        pthread_create(&threads[i], NULL, takes, (void *)i);
    for (int number = 1; number <= workers() * EACH; number++)
        put(number);
    for (int i = 0; i < workers(); i++) {
        pthread_join(threads[i], NULL);
        all += sums[i];
    }
    printf("sum %d\n", all);
    return 0;
}
