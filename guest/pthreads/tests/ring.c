// One thread puts numbers into a ring of four where it has room, and another takes them where there are some; the lock is held for
// the look, given back, and taken again for the change. With one of each that is right. With two takers the ring may be empty by
// then: what one takes isn't what was put. Mended, a look and its change are under one lock. For 4 harts.
#include <assert.h>
#include <pthread.h>
#include <stdio.h>

enum { ROOM = 4, NUMBERS = 6 };

static pthread_mutex_t lock = PTHREAD_MUTEX_INITIALIZER;
static int ring[ROOM], put, taken, sum;

static void between(void)
{
#ifndef MENDED
    pthread_mutex_unlock(&lock);
    pthread_mutex_lock(&lock);
#endif
}

static void *puts_all(void *nothing)
{
    for (int number = 1; number <= NUMBERS;) {
        pthread_mutex_lock(&lock);
        if (put - taken < ROOM) {
            ring[put++ % ROOM] = number++;
        }
        pthread_mutex_unlock(&lock);
    }
    return nothing;
}

static void *takes(void *nothing)
{
    for (int left = NUMBERS; left > 0;) {
        pthread_mutex_lock(&lock);
        if (put > taken) {
            between();
            assert(put > taken);
            sum += ring[taken++ % ROOM];
        }
        left = NUMBERS - taken;
        pthread_mutex_unlock(&lock);
    }
    return nothing;
}

int main(void)
{
    pthread_t putter, takers[2];
    for (int i = 0; i < 2; i++)
        pthread_create(&takers[i], NULL, takes, NULL);
    pthread_create(&putter, NULL, puts_all, NULL);
    for (int i = 0; i < 2; i++)
        pthread_join(takers[i], NULL);
    pthread_join(putter, NULL);
    printf("sum %d\n", sum);
    return 0;
}
