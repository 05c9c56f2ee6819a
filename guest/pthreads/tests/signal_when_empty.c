// Two takers wait for numbers, and the putter signals only where the box was empty: two numbers put at once wake one taker, and
// the other waits for ever. Mended, it signals each time. For 4 harts.
#include <pthread.h>
#include <stdio.h>

enum { TAKERS = 2, EACH = 3 };

static pthread_mutex_t lock = PTHREAD_MUTEX_INITIALIZER;
static pthread_cond_t some = PTHREAD_COND_INITIALIZER;
static int count, taken;

static void *takes(void *nothing)
{
    for (int i = 0; i < EACH; i++) {
        pthread_mutex_lock(&lock);
        while (count == 0)
            pthread_cond_wait(&some, &lock);
        count--;
        taken++;
        pthread_mutex_unlock(&lock);
    }
    return nothing;
}

static void *puts_all(void *nothing)
{
    for (int i = 0; i < TAKERS * EACH; i++) {
        pthread_mutex_lock(&lock);
        count++;
#ifdef MENDED
        pthread_cond_signal(&some);
#else
        if (count == 1)
            pthread_cond_signal(&some);
#endif
        pthread_mutex_unlock(&lock);
    }
    return nothing;
}

int main(void)
{
    pthread_t putter, takers[TAKERS];
    for (int i = 0; i < TAKERS; i++)
        pthread_create(&takers[i], NULL, takes, NULL);
    pthread_create(&putter, NULL, puts_all, NULL);
    for (int i = 0; i < TAKERS; i++)
        pthread_join(takers[i], NULL);
    pthread_join(putter, NULL);
    printf("%d taken\n", taken);
    return 0;
}
