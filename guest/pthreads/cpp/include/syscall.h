// The one call of Linux that libstdc++'s headers of C++20 make by themselves, futex; runtime.cpp says what it does here.
#ifndef DETHART_SYSCALL_H
#define DETHART_SYSCALL_H
enum { SYS_futex = 98 };
extern "C" long syscall(long number, ...);
#endif
