// What can't be had fails, and says so. The linker says so too.
#include <assert.h>
#include <errno.h>
#include <fcntl.h>
#include <pthread.h>
#include <stdio.h>
#include <sys/mman.h>
#include <sys/wait.h>
#include <unistd.h>

int main(void)
{
    assert(fork() == -1 && errno == ENOSYS);
    assert(mmap(NULL, 4096, PROT_READ, MAP_PRIVATE | MAP_ANONYMOUS, -1, 0) == MAP_FAILED && errno == ENOSYS);
    assert(open("name", O_RDONLY) == -1 && errno == ENOENT);
    assert(open("name", O_WRONLY | O_CREAT, 0600) == -1 && errno == EROFS);
    pthread_attr_t attr;
    clockid_t clock;
    assert(pthread_getattr_np(pthread_self(), &attr) == ENOSYS && pthread_getcpuclockid(pthread_self(), &clock) == ENOSYS);
    assert(pthread_setschedprio(pthread_self(), 0) == 0 && pthread_setschedprio(pthread_self(), 1) == ENOTSUP);
    puts("failed");
    return 0;
}
