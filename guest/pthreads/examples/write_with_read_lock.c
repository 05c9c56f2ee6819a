// Two threads count up a pair of numbers, five times each, and one compares them. Those that count take the lock for reading: so
// they count at the same time, and the third looks meanwhile. An assert fails where it sees two numbers that differ, or where an
// addition is lost. Mended, they take the lock for writing.
#include <assert.h>
#include <pthread.h>
#include <stdio.h>

enum { COUNTERS = 2, TURNS = 5 };

static pthread_rwlock_t lock = PTHREAD_RWLOCK_INITIALIZER;
static volatile int left, right;

static void *counts(void *nothing)
{
    for (int i = 0; i < TURNS; i++) {
#ifdef MENDED
        pthread_rwlock_wrlock(&lock);
#else
        pthread_rwlock_rdlock(&lock);
#endif
        left = left + 1;
        right = right + 1;
        pthread_rwlock_unlock(&lock);
    }
    return nothing;
}

static void *compares(void *nothing)
{
    for (int i = 0; i < TURNS; i++) {
        pthread_rwlock_rdlock(&lock);
        assert(left == right);
        pthread_rwlock_unlock(&lock);
    }
    return nothing;
}

int main(void)
{
    pthread_t counters[COUNTERS], comparer;
    for (int i = 0; i < COUNTERS; i++)
        pthread_create(&counters[i], NULL, counts, NULL);
    pthread_create(&comparer, NULL, compares, NULL);
    for (int i = 0; i < COUNTERS; i++)
        pthread_join(counters[i], NULL);
    pthread_join(comparer, NULL);
    assert(left == COUNTERS * TURNS && right == COUNTERS * TURNS);
    printf("%d\n", left);
    return 0;
}
