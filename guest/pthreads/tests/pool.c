// A pool of workers takes tasks from a list, and main waits until none is left. The tasks add to a total by a load and a store, so
// that one may be lost. Mended, they add by an atomic instruction.
#include <assert.h>
#include <stdbool.h>
#include <stdio.h>
#include <stdlib.h>
#include "workers.h"

enum { TASKS = 10 };

struct task {
    long number;
    struct task *next;
};

static pthread_mutex_t lock = PTHREAD_MUTEX_INITIALIZER;
static pthread_cond_t some = PTHREAD_COND_INITIALIZER, none = PTHREAD_COND_INITIALIZER;
static struct task *first, **end = &first;
static int pending;
static bool is_over;
static long total;

static void submit(long number)
{
    struct task *task = malloc(sizeof *task);
    *task = (struct task){ number, NULL };
    pthread_mutex_lock(&lock);
    *end = task;
    end = &task->next;
    pending++;
    pthread_cond_signal(&some);
    pthread_mutex_unlock(&lock);
}

static struct task *next_task(void)
{
    pthread_mutex_lock(&lock);
    while (!first && !is_over)
        pthread_cond_wait(&some, &lock);
    struct task *task = first;
    if (task && !(first = task->next))
        end = &first;
    pthread_mutex_unlock(&lock);
    return task;
}

static void *works(void *nothing)
{
    for (struct task *task; (task = next_task());) {
#ifdef MENDED
        __atomic_fetch_add(&total, task->number, __ATOMIC_RELAXED);
#else
        total += task->number;
#endif
        free(task);
        pthread_mutex_lock(&lock);
        if (--pending == 0)
            pthread_cond_broadcast(&none);
        pthread_mutex_unlock(&lock);
    }
    return nothing;
}

int main(void)
{
    pthread_t threads[MOST_WORKERS];
    for (int i = 0; i < workers(); i++)
        pthread_create(&threads[i], NULL, works, NULL);
    for (long number = 1; number <= TASKS; number++)
        submit(number);
    pthread_mutex_lock(&lock);
    while (pending)
        pthread_cond_wait(&none, &lock);
    is_over = true;
    pthread_cond_broadcast(&some);
    pthread_mutex_unlock(&lock);
    for (int i = 0; i < workers(); i++)
        pthread_join(threads[i], NULL);
    assert(total == TASKS * (TASKS + 1) / 2);
    printf("total %ld\n", total);
    return 0;
}
