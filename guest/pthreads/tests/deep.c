// A thread whose stack isn't enough for what it holds: all harts exit with 98 when it ends. For 16 harts, which have 32 KiB each.
#include <alloca.h>
#include <pthread.h>
#include <stdint.h>
#include <unistd.h>

enum { ALL = 32768 };

static void *fills(void *nothing)
{
    uintptr_t left = (uintptr_t)__builtin_frame_address(0) % ALL;
    volatile char *room = alloca(left);
    for (uintptr_t i = 0; i < left; i += 8)
        room[i] = 1;
    return nothing;
}

int main(void)
{
    pthread_t thread;
    sleep(1); // until the other harts wait, whose stacks are below
    pthread_create(&thread, NULL, fills, NULL);
    pthread_join(thread, NULL);
    return 0;
}
