// Keys with destructors, once, variables of a thread's own, errno, strdup, names, time, and formats of printf and scanf.
#define _GNU_SOURCE
#include <assert.h>
#include <errno.h>
#include <stdio.h>
#include <stdlib.h>
#include <string.h>
#include <time.h>
#include "workers.h"

static pthread_once_t once = PTHREAD_ONCE_INIT;
static pthread_key_t key;
static int made, gone;
static _Thread_local int own = 3;

static void is_gone(void *text)
{
    __atomic_fetch_add(&gone, 1, __ATOMIC_RELAXED);
    free(text);
}

static void make(void)
{
    made++;
    assert(pthread_key_create(&key, is_gone) == 0);
}

static void has_a_name(long me)
{
    char name[16], wanted[16];
    sprintf(wanted, "worker %ld", me);
    assert(pthread_setname_np(pthread_self(), wanted) == 0 && pthread_setname_np(pthread_self(), "sixteen letters.") == ERANGE);
    assert(pthread_getname_np(pthread_self(), name, sizeof name) == 0 && strcmp(name, wanted) == 0);
    assert(pthread_getname_np(pthread_self(), name, 15) == ERANGE);
}

static void *uses(void *me)
{
    pthread_once(&once, make);
    assert(pthread_getspecific(key) == NULL);
    char *text = strdup("own");
    pthread_setspecific(key, text);
    has_a_name((long)me);
    own += (int)(long)me;
    errno = (int)(long)me + 1;
    usleep(1000);
    assert(own == 3 + (int)(long)me && errno == (int)(long)me + 1 && pthread_getspecific(key) == text);
    return NULL;
}

static void takes_time(void)
{
    struct timespec before, after, tenth = { 0, 100000000 };
    clock_gettime(CLOCK_MONOTONIC, &before);
    nanosleep(&tenth, NULL);
    clock_gettime(CLOCK_MONOTONIC, &after);
    assert((after.tv_sec - before.tv_sec) * 1000000000L + after.tv_nsec - before.tv_nsec >= tenth.tv_nsec);
}

int main(void)
{
    int decimal, hexadecimal;
    char word[8];
    for (int turn = 0; turn < 3; turn++)
        run_workers(uses);
    assert(made == 1 && gone == 3 * workers() && own == 3);
    takes_time();
    assert(sscanf("12 0x1f word", "%d %x %7s", &decimal, (unsigned *)&hexadecimal, word) == 3);
    printf("%s %4d|%-4d|%lld %c\n", word, decimal, hexadecimal, 1LL << 40, '.');
    return 0;
}
