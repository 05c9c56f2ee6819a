// libstdc++'s headers are those for Linux, which ask what glibc can do. Here is none, and all of pthread.h is there.
#ifndef DETHART_FEATURES_H
#define DETHART_FEATURES_H
#include <sys/features.h>
#define __GLIBC_PREREQ(major, minor) 0
#define _GLIBCXX_GTHREAD_USE_WEAK 0
#endif
