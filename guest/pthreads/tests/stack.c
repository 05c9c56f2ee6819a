// One thread pushes five numbers under a lock, and another pops where a flag says that something was pushed. The flag is never
// taken back, so that it pops from an empty stack. Mended, it looks at the stack. For 3 harts.
#include <assert.h>
#include <pthread.h>
#include <stdbool.h>
#include <stdio.h>

enum { ROOM = 5 };

static pthread_mutex_t lock = PTHREAD_MUTEX_INITIALIZER;
static int stack[ROOM], height;
static bool was_pushed;

static void *pushes(void *nothing)
{
    for (int i = 0; i < ROOM; i++) {
        pthread_mutex_lock(&lock);
        assert(height < ROOM);
        stack[height++] = i;
        was_pushed = true;
        pthread_mutex_unlock(&lock);
    }
    return nothing;
}

static void *pops(void *nothing)
{
    for (int i = 0; i < ROOM; i++) {
        pthread_mutex_lock(&lock);
#ifdef MENDED
        bool some = height > 0;
#else
        bool some = was_pushed;
#endif
        if (some) {
            assert(height > 0);
            height--;
        }
        pthread_mutex_unlock(&lock);
    }
    return nothing;
}

int main(void)
{
    pthread_t pusher, popper;
    pthread_create(&pusher, NULL, pushes, NULL);
    pthread_create(&popper, NULL, pops, NULL);
    pthread_join(pusher, NULL);
    pthread_join(popper, NULL);
    puts("done");
    return 0;
}
