// A thread aborts while main waits for it: all harts exit with 134, and what was printed is put out.
#include <pthread.h>
#include <stdio.h>
#include <stdlib.h>

static void *ends(void *nothing)
{
    puts("before");
    abort();
    return nothing;
}

int main(void)
{
    pthread_t thread;
    pthread_create(&thread, NULL, ends, NULL);
    pthread_join(thread, NULL);
    return 0;
}
