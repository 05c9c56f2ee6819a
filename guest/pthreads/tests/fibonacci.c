// Two threads add each other's number to their own, five times each: neither comes beyond the twelfth of Fibonacci's numbers, 144.
#include <assert.h>
#include <pthread.h>
#include <stdio.h>

enum { TURNS = 5, LIMIT = 144 };

static volatile int left = 1, right = 1;

static void *adds_right(void *nothing)
{
    for (int i = 0; i < TURNS; i++)
        left = left + right;
    return nothing;
}

static void *adds_left(void *nothing)
{
    for (int i = 0; i < TURNS; i++)
        right = right + left;
    return nothing;
}

int main(void)
{
    pthread_t one, two;
    pthread_create(&one, NULL, adds_right, NULL);
    pthread_create(&two, NULL, adds_left, NULL);
    pthread_join(one, NULL);
    pthread_join(two, NULL);
    assert(left <= LIMIT && right <= LIMIT);
    puts("within the limit");
    return 0;
}
