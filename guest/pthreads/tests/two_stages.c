// One thread writes a number under one lock and its successor under another, four times. A second thread reads the number, and
// then expects its successor, or a later one: it may come between. Mended, both are written under the first lock. For 3 harts.
#include <assert.h>
#include <pthread.h>
#include <stdio.h>

enum { TURNS = 4 };

static pthread_mutex_t first_lock = PTHREAD_MUTEX_INITIALIZER, second_lock = PTHREAD_MUTEX_INITIALIZER;
static int first, second;

static void *writes(void *nothing)
{
    for (int number = 1; number <= TURNS; number++) {
        pthread_mutex_lock(&first_lock);
        first = number;
#ifndef MENDED
        pthread_mutex_unlock(&first_lock);
#endif
        pthread_mutex_lock(&second_lock);
        second = number + 1;
        pthread_mutex_unlock(&second_lock);
#ifdef MENDED
        pthread_mutex_unlock(&first_lock);
#endif
    }
    return nothing;
}

static void *reads(void *nothing)
{
    for (int i = 0; i < TURNS; i++) {
        pthread_mutex_lock(&first_lock);
        int seen = first;
        pthread_mutex_unlock(&first_lock);
        pthread_mutex_lock(&second_lock);
        assert(seen == 0 || second > seen);
        pthread_mutex_unlock(&second_lock);
    }
    return nothing;
}

int main(void)
{
    pthread_t writer, reader;
    pthread_create(&writer, NULL, writes, NULL);
    pthread_create(&reader, NULL, reads, NULL);
    pthread_join(writer, NULL);
    pthread_join(reader, NULL);
    printf("%d %d\n", first, second);
    return 0;
}
