// A barrier is destroyed by one thread as soon as it is through, while others are on their way out, and its memory is used anew.
#include <assert.h>
#include <stdio.h>
#include <stdlib.h>
#include <string.h>
#include "workers.h"

static void *passes(void *barrier)
{
    if (pthread_barrier_wait(barrier) == PTHREAD_BARRIER_SERIAL_THREAD) {
        assert(pthread_barrier_destroy(barrier) == 0);
        memset(barrier, 0x55, sizeof(pthread_barrier_t));
        free(barrier);
    }
    return NULL;
}

int main(void)
{
    pthread_t threads[MOST_WORKERS];
    pthread_barrier_t *barrier = malloc(sizeof *barrier);
    assert(pthread_barrier_init(barrier, NULL, (unsigned)workers() + 1) == 0);
    for (int i = 0; i < workers(); i++)
        pthread_create(&threads[i], NULL, passes, barrier);
    passes(barrier);
    for (int i = 0; i < workers(); i++)
        pthread_join(threads[i], NULL);
    puts("through");
    return 0;
}
