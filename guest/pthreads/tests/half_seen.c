// One thread writes two numbers, and another expects none of them or both. Mended, both take a lock. For 3 harts.
#include <assert.h>
#include <pthread.h>
#include <stdio.h>

enum { TURNS = 6 };

static pthread_mutex_t lock = PTHREAD_MUTEX_INITIALIZER;
static volatile int left, right;

static void enter(void)
{
#ifdef MENDED
    pthread_mutex_lock(&lock);
#endif
}

static void leave(void)
{
#ifdef MENDED
    pthread_mutex_unlock(&lock);
#endif
}

static void *writes(void *nothing)
{
    for (int i = 1; i <= TURNS; i++) {
        enter();
        left = i;
        right = -i;
        leave();
    }
    return nothing;
}

static void *reads(void *nothing)
{
    for (int i = 0; i < TURNS; i++) {
        enter();
        int seen_left = left, seen_right = right;
        leave();
        assert(seen_left == -seen_right);
    }
    return nothing;
}

int main(void)
{
    pthread_t writer, reader;
    pthread_create(&writer, NULL, writes, NULL);
    pthread_create(&reader, NULL, reads, NULL);
    pthread_join(writer, NULL);
    pthread_join(reader, NULL);
    puts("whole");
    return 0;
}
