// What a program asks its system: the three streams as files 0, 1 and 2, and who and where it is.
#include <errno.h>
#include <fcntl.h>
#include <stdio.h>
#include <string.h>
#include <sys/stat.h>
#include <unistd.h>
#include "kit.h"

static int fails_with(int error)
{
    errno = error;
    return -1;
}

static bool is_open(int file) { return file >= 0 && file <= 2; }

ssize_t write(int file, const void *from, size_t count)
{
    if (file != 1 && file != 2)
        return fails_with(EBADF);
    pthread_testcancel();
    flockfile(stdout);
    for (size_t i = 0; i < count; i++)
        put_byte(((const uint8_t *)from)[i]);
    funlockfile(stdout);
    return (ssize_t)count;
}

ssize_t read(int file, void *to, size_t count)
{
    if (file != 0)
        return fails_with(EBADF);
    pthread_testcancel();
    flockfile(stdin);
    size_t got = 0;
    for (int c; got < count && (c = get_byte()) >= 0;)
        ((uint8_t *)to)[got++] = (uint8_t)c;
    funlockfile(stdin);
    return (ssize_t)got;
}

// There are no files: none is found, and none can be made.
int open(const char *name, int how, ...) { (void)name; return fails_with(how & O_CREAT ? EROFS : ENOENT); }
int unlink(const char *name) { (void)name; return fails_with(ENOENT); }
int stat(const char *restrict name, struct stat *restrict status) { (void)name; (void)status; return fails_with(ENOENT); }
int access(const char *name, int how) { (void)name; (void)how; return fails_with(ENOENT); }
int close(int file) { return is_open(file) ? 0 : fails_with(EBADF); }
int isatty(int file) { fails_with(is_open(file) ? ENOTTY : EBADF); return 0; }
int fsync(int file) { return fails_with(is_open(file) ? EINVAL : EBADF); }

off_t lseek(int file, off_t at, int from)
{
    (void)at;
    (void)from;
    return fails_with(is_open(file) ? ESPIPE : EBADF);
}

int fstat(int file, struct stat *status)
{
    if (!is_open(file))
        return fails_with(EBADF);
    *status = (struct stat){ .st_mode = S_IFIFO };
    return 0;
}

pid_t getpid(void) { return 1; }
pid_t getppid(void) { return 0; }
pid_t gettid(void) { return (pid_t)__kit_self->number; } // main's is that of the process
int sched_getcpu(void) { return (int)__kit_hart_here; }
int getpagesize(void) { return 4096; }

long sysconf(int name)
{
    switch (name) {
    case _SC_NPROCESSORS_CONF: case _SC_NPROCESSORS_ONLN: return (long)__kit_hart_count;
    case _SC_PAGESIZE: return getpagesize();
    case _SC_CLK_TCK: return CLOCKS_PER_SEC;
    case _SC_THREADS: case _SC_TIMEOUTS: case _SC_MONOTONIC_CLOCK: case _SC_SEMAPHORES: return 200809;
    case _SC_THREAD_KEYS_MAX: return PTHREAD_KEYS_MAX;
    case _SC_THREAD_DESTRUCTOR_ITERATIONS: return PTHREAD_DESTRUCTOR_ITERATIONS;
    case _SC_THREAD_STACK_MIN: return PTHREAD_STACK_MIN;
    case _SC_THREAD_THREADS_MAX: return (long)__kit_hart_count - 1;
    default: return fails_with(EINVAL);
    }
}
