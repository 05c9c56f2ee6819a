// All harts do three steps together: each writes its step, waits at a barrier, and looks at those of all. Without a second barrier
// a fast one writes its next step while others look. Mended, it waits for them.
#include <assert.h>
#include <stdio.h>
#include "workers.h"

enum { STEPS = 3 };

static pthread_barrier_t barrier;
static volatile int at[MOST_WORKERS + 1];
static int serial;

static void *steps(void *me)
{
    for (int step = 1; step <= STEPS; step++) {
        at[(long)me] = step;
        if (pthread_barrier_wait(&barrier) == PTHREAD_BARRIER_SERIAL_THREAD)
            __atomic_fetch_add(&serial, 1, __ATOMIC_RELAXED);
        for (int i = 0; i <= workers(); i++)
            assert(at[i] == step);
#ifdef MENDED
        pthread_barrier_wait(&barrier);
#endif
    }
    return NULL;
}

int main(void)
{
    pthread_t threads[MOST_WORKERS];
    pthread_barrier_init(&barrier, NULL, (unsigned)workers() + 1);
    for (long i = 0; i < workers(); i++)
        pthread_create(&threads[i], NULL, steps, (void *)(i + 1));
    steps(0);
    for (int i = 0; i < workers(); i++)
        pthread_join(threads[i], NULL);
    assert(serial == STEPS);
    assert(pthread_barrier_destroy(&barrier) == 0);
    puts("in step");
    return 0;
}
