// Two threads add 1 and 2 under a lock, and a third, under the lock too, takes it that both haven't come yet. Mended, it takes both
// to be allowed. For 4 harts.
#include <assert.h>
#include <pthread.h>
#include <stdio.h>

static pthread_mutex_t lock = PTHREAD_MUTEX_INITIALIZER;
static int sum;

static void *adds(void *number)
{
    pthread_mutex_lock(&lock);
    sum += (int)(long)number;
    pthread_mutex_unlock(&lock);
    return NULL;
}

static void *looks(void *nothing)
{
    pthread_mutex_lock(&lock);
#ifdef MENDED
    assert(sum <= 3);
#else
    assert(sum < 3);
#endif
    pthread_mutex_unlock(&lock);
    return nothing;
}

int main(void)
{
    pthread_t one, two, three;
    pthread_create(&one, NULL, adds, (void *)1);
    pthread_create(&two, NULL, adds, (void *)2);
    pthread_create(&three, NULL, looks, NULL);
    pthread_join(one, NULL);
    pthread_join(two, NULL);
    pthread_join(three, NULL);
    puts("looked");
    return 0;
}
