// Workers read a pair of numbers under a lock for reading, while main writes both under one for writing.
#include <assert.h>
#include <stdio.h>
#include "workers.h"

enum { TURNS = 5 };

static pthread_rwlock_t lock = PTHREAD_RWLOCK_INITIALIZER;
static int left, right;

static void *reads(void *nothing)
{
    for (int i = 0; i < TURNS; i++) {
        pthread_rwlock_rdlock(&lock);
        assert(left == right);
        pthread_rwlock_unlock(&lock);
    }
    return nothing;
}

int main(void)
{
    pthread_t threads[MOST_WORKERS];
    for (int i = 0; i < workers(); i++)
        pthread_create(&threads[i], NULL, reads, NULL);
    for (int i = 0; i < TURNS; i++) {
        pthread_rwlock_wrlock(&lock);
        left++;
        right++;
        pthread_rwlock_unlock(&lock);
    }
    for (int i = 0; i < workers(); i++)
        pthread_join(threads[i], NULL);
    printf("%d\n", left);
    return 0;
}
