// One thread puts the numbers 1 to 8 into a box that holds two, and two threads take four of them each. Who finds the box empty
// waits, and looks with `if`: between the signal and its return from the wait the other one may have taken the number. Then it
// takes from an empty box, and an assert fails. Mended, it looks again, by `while`.
#include <assert.h>
#include <pthread.h>
#include <stdio.h>

#ifdef MENDED
#define WAIT_WHILE(condition, changed) while (condition) pthread_cond_wait(changed, &lock)
#else
#define WAIT_WHILE(condition, changed) if (condition) pthread_cond_wait(changed, &lock)
#endif

enum { ROOM = 2, NUMBERS = 8, TAKERS = 2 };

static pthread_mutex_t lock = PTHREAD_MUTEX_INITIALIZER;
static pthread_cond_t not_full = PTHREAD_COND_INITIALIZER, not_empty = PTHREAD_COND_INITIALIZER;
static int box[ROOM], count;

static void put(int number)
{
    pthread_mutex_lock(&lock);
    WAIT_WHILE(count == ROOM, &not_full);
    assert(count < ROOM);
    box[count++] = number;
    pthread_cond_signal(&not_empty);
    pthread_mutex_unlock(&lock);
}

static int take(void)
{
    pthread_mutex_lock(&lock);
    WAIT_WHILE(count == 0, &not_empty);
    assert(count > 0);
    int number = box[--count];
    pthread_cond_signal(&not_full);
    pthread_mutex_unlock(&lock);
    return number;
}

static void *puts_all(void *nothing)
{
    for (int number = 1; number <= NUMBERS; number++)
        put(number);
    return nothing;
}

static void *takes_some(void *sum)
{
    for (int i = 0; i < NUMBERS / TAKERS; i++)
        *(int *)sum += take();
    return sum;
}

int main(void)
{
    pthread_t putter, takers[TAKERS];
    int sums[TAKERS] = { 0, 0 };
    for (int i = 0; i < TAKERS; i++)
        pthread_create(&takers[i], NULL, takes_some, &sums[i]);
    pthread_create(&putter, NULL, puts_all, NULL);
    for (int i = 0; i < TAKERS; i++)
        pthread_join(takers[i], NULL);
    pthread_join(putter, NULL);
    printf("sum %d\n", sums[0] + sums[1]);
    return 0;
}
