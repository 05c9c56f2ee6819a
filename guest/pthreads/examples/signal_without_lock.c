// Main and a thread take turns, three each, and count them. Each looks under a lock whether it is its turn, but gives the turn
// away and signals without: that may happen after the other one's look and before its wait, where the signal wakes nobody. Then
// both wait for ever. Mended, the turn is given away under the lock.
#include <pthread.h>
#include <stdio.h>

enum { TURNS = 3 };

static pthread_mutex_t lock = PTHREAD_MUTEX_INITIALIZER;
static pthread_cond_t changed = PTHREAD_COND_INITIALIZER;
static volatile int whose;
static int turns;

static void takes_turns(int me)
{
    for (int i = 0; i < TURNS; i++) {
        pthread_mutex_lock(&lock);
        while (whose != me)
            pthread_cond_wait(&changed, &lock);
        turns++;
#ifdef MENDED
        whose = !me;
        pthread_cond_signal(&changed);
        pthread_mutex_unlock(&lock);
#else
        pthread_mutex_unlock(&lock);
        whose = !me;
        pthread_cond_signal(&changed);
#endif
    }
}

static void *takes_turns_too(void *nothing)
{
    takes_turns(1);
    return nothing;
}

int main(void)
{
    pthread_t thread;
    pthread_create(&thread, NULL, takes_turns_too, NULL);
    takes_turns(0);
    pthread_join(thread, NULL);
    printf("%d turns\n", turns);
    return 0;
}
