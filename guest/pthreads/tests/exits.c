// The last worker ends the program while the others wait for a signal that never comes, and main for them: all exit with 7.
#include <stdio.h>
#include <stdlib.h>
#include "workers.h"

static pthread_mutex_t lock = PTHREAD_MUTEX_INITIALIZER;
static pthread_cond_t never = PTHREAD_COND_INITIALIZER;

static void *waits_or_ends(void *me)
{
    if ((long)me == workers() - 1) {
        puts("over");
        exit(7);
    }
    pthread_mutex_lock(&lock);
    for (;;)
        pthread_cond_wait(&never, &lock);
}

int main(void)
{
    run_workers(waits_or_ends);
    return 0;
}
