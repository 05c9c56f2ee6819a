// One thread gets ready, and another waits for that with `if`. As long as a condition wakes for a signal alone, nothing is wrong with it;
// where it may come back without one, the assert fails. Mended, it looks again, by `while`.
#include <assert.h>
#include <pthread.h>
#include <stdio.h>

#ifdef MENDED
#define WAIT_WHILE(condition) while (condition) pthread_cond_wait(&changed, &lock)
#else
#define WAIT_WHILE(condition) if (condition) pthread_cond_wait(&changed, &lock)
#endif

static pthread_mutex_t lock = PTHREAD_MUTEX_INITIALIZER;
static pthread_cond_t changed = PTHREAD_COND_INITIALIZER;
static int ready;

static void *gets_ready(void *nothing)
{
    pthread_mutex_lock(&lock);
    ready = 1;
    pthread_cond_signal(&changed);
    pthread_mutex_unlock(&lock);
    return nothing;
}

int main(void)
{
    pthread_t other;
    pthread_create(&other, NULL, gets_ready, NULL);
    pthread_mutex_lock(&lock);
    WAIT_WHILE(!ready);
    assert(ready);
    pthread_mutex_unlock(&lock);
    pthread_join(other, NULL);
    puts("ready");
    return 0;
}
