// Main reads numbers and the workers add them up.
#include <stdio.h>
#include "workers.h"

static pthread_mutex_t lock = PTHREAD_MUTEX_INITIALIZER;
static int sum;

static void *adds(void *nothing)
{
    for (int number; scanf("%d", &number) == 1;) {
        pthread_mutex_lock(&lock);
        sum += number;
        pthread_mutex_unlock(&lock);
    }
    return nothing;
}

int main(void)
{
    run_workers(adds);
    printf("sum %d\n", sum);
    return 0;
}
