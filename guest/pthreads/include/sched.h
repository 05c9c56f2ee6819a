#ifndef DETHART_SCHED_H
#define DETHART_SCHED_H
#include_next <sched.h>
#ifdef __cplusplus
extern "C" {
#endif
int sched_yield(void);
int sched_getcpu(void); // the hart's number
#ifdef __cplusplus
}
#endif
#endif
