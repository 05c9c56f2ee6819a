// Time: a round takes ROUND_NS nanoseconds, and round 0 is the beginning of all clocks. So clocks, sleeps and timed waits agree.
#include <errno.h>
#include <sys/time.h>
#include <sys/times.h>
#include <unistd.h>
#include "kit.h"

extern char __kit_round_ns[]; // the number itself, by the linker

static const uint64_t second_ns = 1000000000;

static uint64_t round_ns(void) { return (uintptr_t)__kit_round_ns; }
static struct timespec time_of(uint64_t ns) { return (struct timespec){ (time_t)(ns / second_ns), (long)(ns % second_ns) }; }
static uint64_t rounds_of(uint64_t ns) { return (ns + round_ns() - 1) / round_ns(); }

static uint64_t now_ns(void)
{
    __kit_end_with_others(); // a program may wait by looking at a clock
    return round_number() * round_ns();
}

bool __kit_is_no_time(const struct timespec *time)
{
    return time->tv_nsec < 0 || (uint64_t)time->tv_nsec >= second_ns;
}

uint64_t __kit_round_of(const struct timespec *time)
{
    if (time->tv_sec < 0)
        return 0;
    if ((uint64_t)time->tv_sec >= UINT64_MAX / second_ns - 1)
        return UINT64_MAX; // never
    return rounds_of((uint64_t)time->tv_sec * second_ns + (uint64_t)time->tv_nsec);
}

bool __kit_is_clock(clockid_t clock)
{
    return clock == CLOCK_REALTIME || clock == CLOCK_MONOTONIC;
}

static bool can_be_read(clockid_t clock)
{
    return __kit_is_clock(clock) || clock == CLOCK_PROCESS_CPUTIME_ID || clock == CLOCK_THREAD_CPUTIME_ID;
}

static int fails_with(int error)
{
    errno = error;
    return -1;
}

int clock_gettime(clockid_t clock, struct timespec *time)
{
    if (!can_be_read(clock))
        return fails_with(EINVAL);
    *time = time_of(now_ns());
    return 0;
}

int clock_getres(clockid_t clock, struct timespec *time)
{
    if (!can_be_read(clock))
        return fails_with(EINVAL);
    if (time)
        *time = time_of(round_ns());
    return 0;
}

int gettimeofday(struct timeval *restrict time, void *restrict zone)
{
    (void)zone;
    uint64_t us = now_ns() / 1000;
    *time = (struct timeval){ (time_t)(us / 1000000), (suseconds_t)(us % 1000000) };
    return 0;
}

int timespec_get(struct timespec *time, int base)
{
    if (base != TIME_UTC)
        return 0;
    *time = time_of(now_ns());
    return base;
}

time_t time(time_t *out)
{
    time_t now = (time_t)(now_ns() / second_ns);
    if (out)
        *out = now;
    return now;
}

clock_t clock(void) { return (clock_t)(now_ns() / (second_ns / CLOCKS_PER_SEC)); }

clock_t times(struct tms *out)
{
    clock_t now = clock();
    *out = (struct tms){ .tms_utime = now };
    return now;
}

// Sleeps.

static void sleep_until(uint64_t round)
{
    __kit_lets_others_begin();
    do {
        __kit_end_with_others();
        pthread_testcancel();
    } while (round_number() < round);
}

int sched_yield(void)
{
    __kit_lets_others_begin();
    __kit_wait_a_round();
    return 0;
}

int pthread_yield(void) { return sched_yield(); }
unsigned sleep(unsigned seconds) { sleep_until(round_number() + rounds_of(seconds * second_ns)); return 0; }
int usleep(useconds_t us) { sleep_until(round_number() + rounds_of(us * 1000ull)); return 0; }

// As the function returns the number of an error, which POSIX asks of clock_nanosleep.
static int sleep_for(int absolute, const struct timespec *time, struct timespec *left)
{
    if (time->tv_sec < 0 || __kit_is_no_time(time))
        return EINVAL;
    sleep_until(absolute ? __kit_round_of(time) : round_number() + __kit_round_of(time));
    if (left && !absolute)
        *left = (struct timespec){ 0, 0 };
    return 0;
}

int clock_nanosleep(clockid_t clock, int flags, const struct timespec *time, struct timespec *left)
{
    return __kit_is_clock(clock) ? sleep_for(flags & TIMER_ABSTIME, time, left) : EINVAL;
}

int nanosleep(const struct timespec *time, struct timespec *left)
{
    int error = sleep_for(0, time, left);
    return error ? fails_with(error) : 0;
}
