// A Chase-Lev deque in C11: main pushes tasks and takes some back, another thread steals from the other end. Each task is run once.
// Without the fence in `take` main may read an old `top` and take a task that was stolen. Mended, it has that fence. For 2 harts.
#include <assert.h>
#include <pthread.h>
#include <stdatomic.h>
#include <stdio.h>

enum { TASKS = 8, STEALS = 8 };

// The tasks from place `top` on and before place `bottom` are there. They have the numbers from 1 on; 0 is none.
static _Atomic long top, bottom;
static _Atomic int tasks[TASKS];
static _Atomic int times_run[TASKS + 1];

static void fence_of_take(void)
{
#ifdef MENDED
    atomic_thread_fence(memory_order_seq_cst);
#endif
}

static void push(int task)
{
    long place = atomic_load_explicit(&bottom, memory_order_relaxed);
    atomic_store_explicit(&tasks[place], task, memory_order_relaxed);
    atomic_store_explicit(&bottom, place + 1, memory_order_release);
}

static int take(void)
{
    long place = atomic_load_explicit(&bottom, memory_order_relaxed) - 1;
    atomic_store_explicit(&bottom, place, memory_order_relaxed);
    fence_of_take();
    long seen = atomic_load_explicit(&top, memory_order_relaxed);
    if (seen < place)
        return atomic_load_explicit(&tasks[place], memory_order_relaxed);
    // It is the last one, for which the thief may have come too, or there is none.
    int task = 0;
    if (seen == place && atomic_compare_exchange_strong(&top, &seen, place + 1))
        task = atomic_load_explicit(&tasks[place], memory_order_relaxed);
    atomic_store_explicit(&bottom, place + 1, memory_order_relaxed);
    return task;
}

static int steal(void)
{
    long place = atomic_load_explicit(&top, memory_order_acquire);
    atomic_thread_fence(memory_order_seq_cst);
    if (place >= atomic_load_explicit(&bottom, memory_order_acquire))
        return 0;
    int task = atomic_load_explicit(&tasks[place], memory_order_relaxed);
    return atomic_compare_exchange_strong(&top, &place, place + 1) ? task : 0;
}

static void run(int task)
{
    assert(task == 0 || atomic_fetch_add_explicit(&times_run[task], 1, memory_order_relaxed) == 0);
}

static void *steals(void *nothing)
{
    for (int i = 0; i < STEALS; i++)
        run(steal());
    return nothing;
}

int main(void)
{
    pthread_t thief;
    pthread_create(&thief, NULL, steals, NULL);
    for (int task = 1; task <= TASKS; task += 2) {
        push(task);
        push(task + 1);
        run(take());
        run(take());
    }
    pthread_join(thief, NULL);
    puts("each once");
    return 0;
}
