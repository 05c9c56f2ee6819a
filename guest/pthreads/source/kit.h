// What the parts of the kit share. Names that other files see begin with __kit_, so that none is also the user's.
#ifndef KIT_H
#define KIT_H

#include <pthread.h>
#include <stdbool.h>
#include <stdint.h>
#include "dethart.h"
#include "order.h"

enum { MOST_HARTS = 64 };

// Exit values of all harts where the kit itself ends the program. As a shell shows an abort, 134 is 128 + SIGABRT.
enum { STACK_TOO_SMALL = 98, TOO_FEW_HARTS = 99, ABORTED = 134 };

// Of __kit_thread.fate.
enum { DETACHED = 1, ENDED = 2, JOINING = 4 };

struct __kit_thread {
    unsigned number;          // counts all threads from 1 on; 0: none uses this record
    volatile unsigned fate;   // whoever sets the second one of DETACHED and ENDED gives the record back
    volatile unsigned done;   // its result is there, and its hart is free
    volatile unsigned cancelled;
    void *(*run)(void *);
    void *argument, *result;
    const volatile unsigned *gate; // where there is one, the thread begins when it holds another number
    unsigned closed;               // than this one,
    uint64_t begins_anyhow;        // or in this round
    struct __kit_thread *next;     // of the records that are free
};

struct __kit_hart {
    struct __kit_thread *volatile job; // the thread that it is to run, or is running
    volatile unsigned taken;           // 1: has a thread, or will have one soon
    volatile unsigned waits;           // how often its thread began to wait after it had created others
    unsigned has_created;              // since then
    uint64_t *mark;                    // the lowest word of its stack
};

extern struct __kit_hart __kit_harts[MOST_HARTS];
extern uint64_t __kit_hart_count;
extern volatile unsigned __kit_ended; // all harts are to exit
extern struct __kit_thread __kit_main_thread;

// Of the thread that asks.
extern _Thread_local struct __kit_thread *__kit_self;
extern _Thread_local pthread_t __kit_handle;
extern _Thread_local unsigned __kit_hart_here;
extern _Thread_local struct __cleanup *__kit_cleanups; // the innermost one

// Ends (process.c).

// Exits with this value, and so do all other harts at their next wait or lock.
_Noreturn void __kit_end_all(int value);
// The same after what is to be put out still, and a line that says why.
_Noreturn void __kit_fail(int value, const char *before, uint64_t number, const char *after);
// Fails where something was stored below the stack of this hart.
void __kit_look_at_stack(void);
// Exits if another hart has ended the program.
_Noreturn void __kit_exit_too(void);

static inline void __kit_end_with_others(void)
{
    if (__kit_ended)
        __kit_exit_too();
}

// Waits.

// Ends the hart's part of the round: the call of a number that stands for nothing. It is no event, orders nothing, and leaves the
// hart as it was, so that a hunt can tell a wait that never ends.
enum { NO_CALL = -1, CALL_FOR_ROUND = 3 };

static inline void __kit_end_part(void)
{
    call((uint64_t)NO_CALL, 0);
}

// One turn of a loop that waits for another hart.
static inline void __kit_wait_a_round(void)
{
    __kit_end_part();
    __kit_end_with_others();
}

// The same of a wait that may have an end by the clock, with the number of the round. It isn't asked for where there is no such end.
static inline uint64_t __kit_wait_till(const struct timespec *until)
{
    uint64_t now = call(until ? CALL_FOR_ROUND : (uint64_t)NO_CALL, 0);
    __kit_end_with_others();
    return now;
}

// Comes before a loop that waits: the threads that this one created may begin now (threads.c says what for).
static inline void __kit_lets_others_begin(void)
{
    struct __kit_hart *hart = &__kit_harts[__kit_hart_here];
    if (hart->has_created) {
        hart->has_created = 0;
        hart->waits = hart->waits + 1;
    }
}

// The round in which this time is reached (time.c).
uint64_t __kit_round_of(const struct timespec *time);
// Whether it is no time: nanoseconds below 0, or of a second and more.
bool __kit_is_no_time(const struct timespec *time);
// Whether this is a clock by which one can wait.
bool __kit_is_clock(clockid_t clock);

// Threads (threads.c, cancel.c, keys.c), mutexes.

// The name of a thread: its number and its record, so that none is used again.
static inline pthread_t __kit_name_of(const struct __kit_thread *thread)
{
    return (pthread_t)thread->number << 32 | (uintptr_t)thread;
}

// The record of a thread, or 0 where there is none of this name (any more).
struct __kit_thread *__kit_thread_of(pthread_t thread);
// What is left to do when the function of a thread has returned.
void __kit_thread_ends(void *result);
// Goes back to where the hart waits for a thread (start.S).
_Noreturn void __kit_leave_thread(void);
// Whether the thread is to end at its next cancellation point.
bool __kit_is_cancelled(void);
// Says that no thread runs on this hart any more (process.c).
void __kit_hart_is_idle(void);
// Gives the values of keys to their destructors. Only there where the program has keys.
__attribute__((weak)) void __kit_destroy_values(void);

// Whether this thread may give the mutex back, as far as that can be told (mutexes.c).
bool __kit_may_unlock(const pthread_mutex_t *mutex);

// Puts out what is kept of stdout, at the program's end (streams.c).
void __kit_flush_output(void);

// What the linker says where a program calls the function.
#define __KIT_WARNING(name, why) \
    __asm__(".pushsection .gnu.warning." #name ", \"\", @progbits\n.ascii \"" #name ": " why "\"\n.popsection");

#endif
