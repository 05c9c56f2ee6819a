// Signals: none ever comes from outside. picolibc's raise calls the handler that its signal set, and here is what is left.
#include <errno.h>
#include <signal.h>
#include <unistd.h>
#include "kit.h"

static _Thread_local sigset_t __kit_blocked;

int pthread_sigmask(int how, const sigset_t *set, sigset_t *old)
{
    if (old)
        *old = __kit_blocked;
    if (!set)
        return 0;
    if (how == SIG_BLOCK)
        __kit_blocked |= *set;
    else if (how == SIG_UNBLOCK)
        __kit_blocked &= ~*set;
    else if (how == SIG_SETMASK)
        __kit_blocked = *set;
    else
        return EINVAL;
    return 0;
}

int sigprocmask(int how, const sigset_t *set, sigset_t *old)
{
    int error = pthread_sigmask(how, set, old);
    if (error)
        errno = error;
    return error ? -1 : 0;
}

int sigpending(sigset_t *set) { *set = 0; return 0; }

// No signal ends these: they wait until the thread is cancelled, or the program ends.

static _Noreturn void wait_for_signal(void)
{
    __kit_lets_others_begin();
    for (;;) {
        pthread_testcancel();
        __kit_wait_a_round();
    }
}

#define WAITS(name, parameters)                                                                     \
    __KIT_WARNING(name, "no signal comes to a guest, so this waits until the thread is cancelled") \
    int name parameters { wait_for_signal(); }

#pragma GCC diagnostic ignored "-Wunused-parameter"

WAITS(pause, (void))
WAITS(sigsuspend, (const sigset_t *set))
WAITS(sigwait, (const sigset_t *set, int *number))
WAITS(sigwaitinfo, (const sigset_t *set, siginfo_t *info))

// To itself alone, and the program ends, as if it had no handler.
int kill(pid_t process, int number)
{
    if (process != 1) {
        errno = ESRCH;
        return -1;
    }
    if (number)
        _exit(128 + number);
    return 0;
}

int pthread_kill(pthread_t thread, int number)
{
    if (!__kit_thread_of(thread))
        return ESRCH;
    return number ? EINVAL : 0;
}
