// Three threads add up a third of the numbers 1 to 30 each, and main adds what they came to. It waits for the first two alone, so
// that it may come before the third has stored its sum. Mended, it waits for all three.
#include <pthread.h>
#include <stdio.h>

enum { THREADS = 3, EACH = 10 };

static int sums[THREADS];

static void *adds(void *part)
{
    int here = (int)(long)part, sum = 0;
    for (int number = here * EACH + 1; number <= (here + 1) * EACH; number++)
        sum += number;
    sums[here] = sum;
    return NULL;
}

int main(void)
{
    pthread_t threads[THREADS];
#ifdef MENDED
    int waited_for = THREADS;
#else
    int waited_for = THREADS - 1;
#endif
    for (long part = 0; part < THREADS; part++)
        pthread_create(&threads[part], NULL, adds, (void *)part);
    for (int i = 0; i < waited_for; i++)
        pthread_join(threads[i], NULL);
    printf("sum %d\n", sums[0] + sums[1] + sums[2]);
    return 0;
}
