// Three philosophers at a table with three forks. Each takes the fork at its left first and then the one at its right: where all
// have their left fork, all wait for ever. Mended, each takes the fork of the lower number first.
#include <pthread.h>
#include <stdio.h>

enum { SEATS = 3, MEALS = 3 };

static pthread_mutex_t forks[SEATS];
static int meals[SEATS];

static void *dines(void *seat)
{
    int here = (int)(long)seat;
    int first = here, second = (here + 1) % SEATS;
#ifdef MENDED
    if (first > second) {
        first = second;
        second = here;
    }
#endif
    for (int i = 0; i < MEALS; i++) {
        pthread_mutex_lock(&forks[first]);
        pthread_mutex_lock(&forks[second]);
        meals[here]++;
        pthread_mutex_unlock(&forks[second]);
        pthread_mutex_unlock(&forks[first]);
    }
    return NULL;
}

int main(void)
{
    pthread_t threads[SEATS];
    int all = 0;
    for (int i = 0; i < SEATS; i++)
        pthread_mutex_init(&forks[i], NULL);
    for (long seat = 0; seat < SEATS; seat++)
        pthread_create(&threads[seat], NULL, dines, (void *)seat);
    for (int i = 0; i < SEATS; i++) {
        pthread_join(threads[i], NULL);
        all += meals[i];
    }
    printf("%d meals\n", all);
    return 0;
}
