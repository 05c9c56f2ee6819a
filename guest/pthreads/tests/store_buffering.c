// Two threads store to one cell each and load the other's. With relaxed atomics both may load 0, since a load may pass a store to
// another cell; mended, with sequentially consistent ones, never. For 3 harts.
#include <assert.h>
#include <pthread.h>
#include <stdatomic.h>
#include <stdio.h>

#ifdef MENDED
#define ORDER memory_order_seq_cst
#else
#define ORDER memory_order_relaxed
#endif

static atomic_int cells[2];
static int seen[2];

static void *stores_and_loads(void *number)
{
    int me = (int)(long)number;
    atomic_store_explicit(&cells[me], 1, ORDER);
    seen[me] = atomic_load_explicit(&cells[1 - me], ORDER);
    return NULL;
}

int main(void)
{
    pthread_t one, two;
    pthread_create(&one, NULL, stores_and_loads, (void *)0);
    pthread_create(&two, NULL, stores_and_loads, (void *)1);
    pthread_join(one, NULL);
    pthread_join(two, NULL);
    assert(seen[0] || seen[1]);
    puts("in order");
    return 0;
}
