// As many threads as there are harts beside that of main.
#include <pthread.h>
#include <unistd.h>

enum { MOST_WORKERS = 63 };

static int workers(void)
{
    return (int)sysconf(_SC_NPROCESSORS_ONLN) - 1;
}

// Runs the function in each of them, with the numbers from 0 on, and waits for all.
static void run_workers(void *(*run)(void *))
{
    pthread_t threads[MOST_WORKERS];
    for (long i = 0; i < workers(); i++)
        pthread_create(&threads[i], NULL, run, (void *)i);
    for (int i = 0; i < workers(); i++)
        pthread_join(threads[i], NULL);
}
