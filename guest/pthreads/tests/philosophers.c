// Philosophers, one a worker, who take the fork of the lower number first. (One worker has both forks to himself.)
#include <stdio.h>
#include "workers.h"

enum { MEALS = 3 };

static pthread_mutex_t forks[MOST_WORKERS + 1];
static int meals[MOST_WORKERS];

static void *dines(void *seat)
{
    int here = (int)(long)seat, seats = workers() > 1 ? workers() : 2, other = (here + 1) % seats;
    int first = here < other ? here : other, second = here < other ? other : here;
    for (int i = 0; i < MEALS; i++) {
        pthread_mutex_lock(&forks[first]);
        pthread_mutex_lock(&forks[second]);
        meals[here]++;
        pthread_mutex_unlock(&forks[second]);
        pthread_mutex_unlock(&forks[first]);
    }
    return NULL;
}

int main(void)
{
    int all = 0;
    for (int i = 0; i <= workers(); i++)
        pthread_mutex_init(&forks[i], NULL);
    run_workers(dines);
    for (int i = 0; i < workers(); i++)
        all += meals[i];
    printf("%d meals\n", all);
    return 0;
}
