// One thread pays in, and another draws from what it read before it took the lock. Mended, it reads under the lock. For 3 harts.
#include <assert.h>
#include <pthread.h>
#include <stdio.h>

static pthread_mutex_t lock = PTHREAD_MUTEX_INITIALIZER;
static int balance = 10;

static void *pays_in(void *nothing)
{
    pthread_mutex_lock(&lock);
    balance = balance + 5;
    pthread_mutex_unlock(&lock);
    return nothing;
}

static void *draws(void *nothing)
{
#ifdef MENDED
    pthread_mutex_lock(&lock);
    int before = balance;
#else
    int before = balance;
    pthread_mutex_lock(&lock);
#endif
    balance = before - 3;
    pthread_mutex_unlock(&lock);
    return nothing;
}

int main(void)
{
    pthread_t one, two;
    pthread_create(&one, NULL, pays_in, NULL);
    pthread_create(&two, NULL, draws, NULL);
    pthread_join(one, NULL);
    pthread_join(two, NULL);
    assert(balance == 12);
    printf("%d\n", balance);
    return 0;
}
