// Two threads store under a lock of their own, and load the other's cell after they gave it back. A load may pass a store before an
// unlock, as with any C library, so both may load 0. Mended, they load under the lock of both. For 3 harts.
#include <assert.h>
#include <pthread.h>
#include <stdio.h>

static pthread_mutex_t locks[2] = { PTHREAD_MUTEX_INITIALIZER, PTHREAD_MUTEX_INITIALIZER };
static volatile int cells[2];
static int seen[2];

static void *stores_and_loads(void *number)
{
    int me = (int)(long)number;
#ifdef MENDED
    pthread_mutex_t *lock = &locks[0];
#else
    pthread_mutex_t *lock = &locks[me];
#endif
    pthread_mutex_lock(lock);
    cells[me] = 1;
#ifdef MENDED
    seen[me] = cells[1 - me];
    pthread_mutex_unlock(lock);
#else
    pthread_mutex_unlock(lock);
    seen[me] = cells[1 - me];
#endif
    return NULL;
}

int main(void)
{
    pthread_t one, two;
    pthread_create(&one, NULL, stores_and_loads, (void *)0);
    pthread_create(&two, NULL, stores_and_loads, (void *)1);
    pthread_join(one, NULL);
    pthread_join(two, NULL);
    assert(seen[0] || seen[1]);
    puts("in order");
    return 0;
}
