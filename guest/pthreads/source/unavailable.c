// What can't be had. Each function fails, and the linker says why where a program calls it.
#include <errno.h>
#include <pthread.h>
#include <signal.h>
#include <stdint.h>
#include <sys/mman.h>
#include <sys/time.h>
#include <sys/wait.h>
#include <unistd.h>
#include "kit.h"

#define UNAVAILABLE(type, name, parameters, answer, why) \
    __KIT_WARNING(name, why)                              \
    __attribute__((weak)) type name parameters            \
    {                                                     \
        errno = ENOSYS;                                   \
        return answer;                                    \
    }

#define ONE_PROCESS "a guest is one process, so this always fails"
#define NO_SIGNALS "no signal comes to a guest, so this always fails"
#define NO_FILES "a guest has no files but 0, 1 and 2, so this always fails"
#define ONE_STACK "a thread has the stack of its hart, so this always fails"
#define ONE_CLOCK "all clocks are the round's number, so this always fails"
#define NO_MAPPING "a guest has the memory that malloc gives, so this always fails"

#pragma GCC diagnostic ignored "-Wunused-parameter"

UNAVAILABLE(pid_t, fork, (void), -1, ONE_PROCESS)
UNAVAILABLE(pid_t, vfork, (void), -1, ONE_PROCESS)
UNAVAILABLE(int, execv, (const char *path, char *const words[]), -1, ONE_PROCESS)
UNAVAILABLE(int, execve, (const char *path, char *const words[], char *const environment[]), -1, ONE_PROCESS)
UNAVAILABLE(int, execvp, (const char *file, char *const words[]), -1, ONE_PROCESS)
UNAVAILABLE(int, execl, (const char *path, const char *word, ...), -1, ONE_PROCESS)
UNAVAILABLE(int, execlp, (const char *file, const char *word, ...), -1, ONE_PROCESS)
UNAVAILABLE(pid_t, wait, (int *status), -1, ONE_PROCESS)
UNAVAILABLE(pid_t, waitpid, (pid_t process, int *status, int options), -1, ONE_PROCESS)

UNAVAILABLE(int, sigaction, (int number, const struct sigaction *action, struct sigaction *old), -1, NO_SIGNALS)
UNAVAILABLE(int, sigtimedwait, (const sigset_t *set, siginfo_t *info, const struct timespec *time), -1, NO_SIGNALS)
UNAVAILABLE(unsigned, alarm, (unsigned seconds), 0, NO_SIGNALS)

UNAVAILABLE(int, pipe, (int files[2]), -1, NO_FILES)
UNAVAILABLE(int, dup, (int file), -1, NO_FILES)
UNAVAILABLE(int, dup2, (int from, int to), -1, NO_FILES)

UNAVAILABLE(void *, mmap, (void *at, size_t size, int protection, int flags, int file, off_t from), MAP_FAILED, NO_MAPPING)
UNAVAILABLE(int, munmap, (void *at, size_t size), -1, NO_MAPPING)
UNAVAILABLE(int, mprotect, (void *at, size_t size, int protection), -1, NO_MAPPING)
UNAVAILABLE(int, shm_open, (const char *name, int flags, mode_t mode), -1, NO_MAPPING)
UNAVAILABLE(int, shm_unlink, (const char *name), -1, NO_MAPPING)

UNAVAILABLE(int, pthread_attr_setstack, (pthread_attr_t *attr, void *stack, size_t size), ENOSYS, ONE_STACK)
UNAVAILABLE(int, pthread_attr_getstack, (const pthread_attr_t *attr, void **stack, size_t *size), ENOSYS, ONE_STACK)
UNAVAILABLE(int, pthread_getattr_np, (pthread_t thread, pthread_attr_t *attr), ENOSYS, ONE_STACK)
UNAVAILABLE(int, pthread_getcpuclockid, (pthread_t thread, clockid_t *clock), ENOSYS, ONE_CLOCK)

// Nothing is forked, so nothing is ever to be called.
int pthread_atfork(void (*before)(void), void (*parent)(void), void (*child)(void)) { return 0; }
