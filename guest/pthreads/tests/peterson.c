// Peterson's algorithm for two, by plain loads and stores: without a fence between its own stores and the look at the other's
// flag, both may come in. Mended, it has that one and all others that it needs. For 3 harts.
#include <assert.h>
#include <pthread.h>
#include <stdio.h>

enum { TURNS = 4 };

static volatile int wants[2], turn, entries;

static void fence(void)
{
#ifdef MENDED
    __sync_synchronize();
#endif
}

static void *enters(void *number)
{
    int me = (int)(long)number, other = 1 - me;
    for (int i = 0; i < TURNS; i++) {
        wants[me] = 1;
        fence();
        turn = other;
        fence();
        while (wants[other] && turn == other)
            fence();
        fence();
        entries = entries + 1;
        fence();
        wants[me] = 0;
        fence();
    }
    return NULL;
}

int main(void)
{
    pthread_t one, two;
    pthread_create(&one, NULL, enters, (void *)0);
    pthread_create(&two, NULL, enters, (void *)1);
    pthread_join(one, NULL);
    pthread_join(two, NULL);
    assert(entries == 2 * TURNS);
    puts("one at a time");
    return 0;
}
