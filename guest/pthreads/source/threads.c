// Threads: their creation, their end, and who waits for it. Each runs on a hart of its own, main on hart 0.
//
// A thread's result is seen through `done`, by the manual's table A.6:
//   create   fence rw,w; sd of the hart's job     (release store; the hart: ld; fence r,rw)
//   end      fence rw,w; sw of done               (release store)
//   join     lw of done; fence r,rw               (acquire load)
// A hart goes from one thread to the next by `taken`:
//   take     amoswap.w.aq                         (acquire RMW)
//   leave    fence rw,w; sw                       (release store)
// Who joins, detaches and ends a thread, and which one is the last, is decided by amoor.w.aqrl, amoand.w.aqrl and amoadd.w.aqrl
// (acquire and release RMW). Numbers of threads are drawn by amoadd.w (relaxed).
#include <errno.h>
#include <stdio.h>
#include <stdlib.h>
#include <string.h>
#include "ticket.h"

// When a new thread begins: START=0 at once, START=1 when the thread that created it begins to wait, START=2 one or the other
// for the whole run, by the round of the first creation. To create a thread takes more instructions than most threads of a
// small program have, so with START=0 the first is done before the second is there, in every plan; with START=1 those that were
// created together begin together. POSIX allows both.
extern char __kit_start[]; // the number itself, by the linker

enum {
    PATIENCE = 2000,    // rounds for which pthread_create waits for a hart to be free
    GATE_OPENS = 4000,  // rounds after which a thread begins though the one that created it never waited
};

static volatile unsigned __kit_threads_alive = 1, __kit_threads_created = 1;

// Records of threads are given back to a list, and never to malloc, so that a name of old can be told.

static struct __ticket __kit_records_lock;
static struct __kit_thread *__kit_free_records;

static struct __kit_thread *take_record(void)
{
    ticket_take(&__kit_records_lock);
    struct __kit_thread *record = __kit_free_records;
    if (record)
        __kit_free_records = record->next;
    ticket_free(&__kit_records_lock);
    return record ? record : malloc(sizeof *record);
}

static void give_record_back(struct __kit_thread *record)
{
    if (record == &__kit_main_thread) {
        record->number = 0;
        return;
    }
    ticket_take(&__kit_records_lock);
    record->number = 0;
    record->next = __kit_free_records;
    __kit_free_records = record;
    ticket_free(&__kit_records_lock);
}

struct __kit_thread *__kit_thread_of(pthread_t handle)
{
    struct __kit_thread *thread = (struct __kit_thread *)(handle & 0xffffffff);
    return handle >> 32 && thread->number == handle >> 32 ? thread : 0;
}

// Creation.

static bool begin_together(void)
{
    static volatile unsigned __kit_chosen; // 1: no, 2: yes
    if (!__kit_chosen) {
        uintptr_t start = (uintptr_t)__kit_start;
        __kit_chosen = 1 + (start == 2 ? (round_number() * 2654435761u >> 16 & 1) : start);
    }
    return __kit_chosen == 2;
}

// Takes the lowest hart that is free, which takes patience where all have a thread.
static unsigned take_hart(void)
{
    for (uint64_t until = 0;;) {
        for (unsigned hart = 1; hart < __kit_hart_count; hart++)
            if (!__kit_harts[hart].taken && swap_acquire(&__kit_harts[hart].taken, 1) == 0)
                return hart;
        uint64_t now = round_number();
        if (!until) {
            until = now + PATIENCE;
            __kit_lets_others_begin();
        } else if (now > until) {
            __kit_fail(TOO_FEW_HARTS, "pthread_create: all ", __kit_hart_count, " harts have a thread: give more --harts\n");
        }
        __kit_end_with_others();
    }
}

int pthread_create(pthread_t *handle, const pthread_attr_t *attr, void *(*run)(void *), void *argument)
{
    __kit_end_with_others();
    unsigned hart = take_hart();
    struct __kit_thread *thread = take_record();
    if (!thread) {
        store_release(&__kit_harts[hart].taken, 0);
        return EAGAIN;
    }
    *thread = (struct __kit_thread){
        .number = add_relaxed(&__kit_threads_created, 1) + 1,
        .fate = attr && attr->detached ? DETACHED : 0,
        .run = run,
        .argument = argument,
    };
    if (begin_together()) {
        struct __kit_hart *here = &__kit_harts[__kit_hart_here];
        thread->gate = &here->waits;
        thread->closed = here->waits;
        thread->begins_anyhow = round_number() + GATE_OPENS;
        here->has_created = 1;
    }
    *handle = __kit_name_of(thread);
    add_relaxed(&__kit_threads_alive, 1);
    release_fence();
    __kit_harts[hart].job = thread;
    return 0;
}

// Ends.

void __kit_thread_ends(void *result)
{
    struct __kit_thread *me = __kit_self;
    struct __kit_hart *here = &__kit_harts[__kit_hart_here];
    __kit_lets_others_begin();
    if (__kit_destroy_values)
        __kit_destroy_values();
    __kit_look_at_stack();
    me->result = result;
    __kit_hart_is_idle();
    store_release(&here->taken, __kit_hart_here == 0); // before anybody can join, who may want the hart for another thread
    if (or_both(&me->fate, ENDED) & DETACHED)
        give_record_back(me);
    else
        store_release(&me->done, 1);
    if (add_both(&__kit_threads_alive, -1) == 1)
        exit(0);
}

_Noreturn void pthread_exit(void *result)
{
    for (struct __cleanup *last; (last = __kit_cleanups);) {
        __kit_cleanups = last->outer;
        last->run(last->argument);
    }
    __kit_thread_ends(result);
    __kit_leave_thread();
}

// Waiting for an end.

// Makes the caller the one that joins this thread.
static int begin_join(pthread_t handle, struct __kit_thread **thread)
{
    *thread = __kit_thread_of(handle);
    if (!*thread)
        return ESRCH;
    if (handle == __kit_handle)
        return EDEADLK;
    unsigned old = or_both(&(*thread)->fate, JOINING);
    if (old & JOINING)
        return EINVAL;
    if (old & DETACHED) {
        and_both(&(*thread)->fate, ~(unsigned)JOINING);
        return EINVAL;
    }
    return 0;
}

static int end_join(struct __kit_thread *thread, void **result)
{
    acquire_fence();
    if (result)
        *result = thread->result;
    give_record_back(thread);
    return 0;
}

static int give_join_up(struct __kit_thread *thread, int error)
{
    and_both(&thread->fate, ~(unsigned)JOINING);
    return error;
}

int pthread_join(pthread_t handle, void **result)
{
    struct __kit_thread *thread;
    int error = begin_join(handle, &thread);
    if (error)
        return error;
    __kit_lets_others_begin();
    while (!thread->done) {
        if (__kit_is_cancelled()) {
            give_join_up(thread, 0);
            pthread_testcancel();
        }
        __kit_wait_a_round();
    }
    return end_join(thread, result);
}

int pthread_tryjoin_np(pthread_t handle, void **result)
{
    struct __kit_thread *thread;
    int error = begin_join(handle, &thread);
    if (error)
        return error;
    return thread->done ? end_join(thread, result) : give_join_up(thread, EBUSY);
}

int pthread_timedjoin_np(pthread_t handle, void **result, const struct timespec *until)
{
    struct __kit_thread *thread;
    int error = begin_join(handle, &thread);
    if (error)
        return error;
    if (until && __kit_is_no_time(until))
        return give_join_up(thread, EINVAL);
    __kit_lets_others_begin();
    while (!thread->done) {
        uint64_t now = __kit_wait_till(until);
        if (until && now >= __kit_round_of(until))
            return give_join_up(thread, ETIMEDOUT);
    }
    return end_join(thread, result);
}

int pthread_clockjoin_np(pthread_t handle, void **result, clockid_t clock, const struct timespec *until)
{
    return __kit_is_clock(clock) ? pthread_timedjoin_np(handle, result, until) : EINVAL;
}

int pthread_detach(pthread_t handle)
{
    struct __kit_thread *thread = __kit_thread_of(handle);
    if (!thread)
        return ESRCH;
    unsigned old = or_both(&thread->fate, DETACHED);
    if (old & DETACHED)
        return EINVAL;
    if (old & JOINING) {
        and_both(&thread->fate, ~(unsigned)DETACHED);
        return EINVAL;
    }
    if (old & ENDED) {
        while (!thread->done)
            __kit_wait_a_round();
        acquire_fence();
        give_record_back(thread);
    }
    return 0;
}

// Names.

pthread_t pthread_self(void) { return __kit_handle; }
int pthread_equal(pthread_t a, pthread_t b) { return a == b; }

// How many threads are to run at once is said, and makes no difference.
static int __kit_concurrency;

int pthread_getconcurrency(void) { return __kit_concurrency; }

int pthread_setconcurrency(int level)
{
    if (level < 0)
        return EINVAL;
    __kit_concurrency = level;
    return 0;
}

// The name of the thread on each hart, as Linux keeps it, and the number of the thread that got it.
struct name {
    unsigned number;
    char text[16];
};

static struct name __kit_names[MOST_HARTS];

// Where the thread's name stands, or 0 where none of this handle runs.
static struct name *name_of(const struct __kit_thread *thread)
{
    for (uint64_t hart = 0; thread && hart < __kit_hart_count; hart++)
        if (__kit_harts[hart].job == thread || (hart == 0 && thread == &__kit_main_thread))
            return &__kit_names[hart];
    return 0;
}

int pthread_setname_np(pthread_t handle, const char *text)
{
    const struct __kit_thread *thread = __kit_thread_of(handle);
    struct name *name = name_of(thread);
    if (!name)
        return ESRCH;
    if (strlen(text) >= sizeof name->text)
        return ERANGE;
    ticket_take(&__kit_records_lock);
    name->number = thread->number;
    strcpy(name->text, text);
    ticket_free(&__kit_records_lock);
    return 0;
}

int pthread_getname_np(pthread_t handle, char *text, size_t size)
{
    const struct __kit_thread *thread = __kit_thread_of(handle);
    const struct name *name = name_of(thread);
    if (!name)
        return ESRCH;
    if (size < sizeof name->text)
        return ERANGE;
    ticket_take(&__kit_records_lock);
    if (name->number == thread->number)
        strcpy(text, name->text);
    else
        snprintf(text, size, "thread %u", thread->number);
    ticket_free(&__kit_records_lock);
    return 0;
}
