// Two threads at once on two harts: all harts exit with 99, and a line says why.
#include <pthread.h>
#include <semaphore.h>

static sem_t both;

static void *waits(void *nothing)
{
    sem_wait(&both);
    return nothing;
}

int main(void)
{
    pthread_t one, two;
    sem_init(&both, 0, 0);
    pthread_create(&one, NULL, waits, NULL);
    pthread_create(&two, NULL, waits, NULL);
    sem_post(&both);
    sem_post(&both);
    pthread_join(one, NULL);
    pthread_join(two, NULL);
    return 0;
}
