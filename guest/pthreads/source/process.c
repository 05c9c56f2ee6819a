// How the program begins on its harts, and how all of them end.
#include <stdlib.h>
#include <string.h>
#include "kit.h"

struct __kit_hart __kit_harts[MOST_HARTS];
uint64_t __kit_hart_count;
volatile unsigned __kit_ended;
struct __kit_thread __kit_main_thread = { .number = 1 };
_Thread_local struct __kit_thread *__kit_self;
_Thread_local pthread_t __kit_handle;
_Thread_local unsigned __kit_hart_here;

int main(int argc, char **argv, char **environment);
extern char __kit_arguments[]; // of the Makefile: each word and a 0, and one more 0
extern char __tdata_start[], __tdata_size[], __tls_size[];
extern void (*__preinit_array_start[])(void), (*__preinit_array_end[])(void);
extern void (*__init_array_start[])(void), (*__init_array_end[])(void);

// Ends. dethart has no call that stops another hart, so each stops itself where it sees that the program has ended: which one ends it
// is decided by amoswap.w.aq, it says so by a release store (fence rw,w; sw), and what sees it is an acquire load (lw; fence r,rw).

static volatile unsigned __kit_ending; // 1: some hart is about to set __kit_ended
static volatile int __kit_end_value;
static struct __kit_thread __kit_no_thread; // the job of a hart that is to exit

_Noreturn void __kit_exit_too(void)
{
    acquire_fence();
    exit_hart((uint64_t)(int64_t)__kit_end_value);
}

_Noreturn void __kit_end_all(int value)
{
    if (swap_acquire(&__kit_ending, 1) == 0) {
        __kit_end_value = value;
        release_fence();
        __kit_ended = 1;
        full_fence(); // as __kit_hart_is_idle says
        for (uint64_t hart = 0; hart < __kit_hart_count; hart++)
            __kit_harts[hart].job = &__kit_no_thread;
        exit_hart((uint64_t)(int64_t)value);
    }
    for (;;)
        __kit_wait_a_round();
}

// Puts out words without stdio, which may have no stack left, or a lock that nobody gives back.
static void put_words(const char *words)
{
    while (*words)
        put_byte((uint8_t)*words++);
}

static void put_number(uint64_t number)
{
    if (number >= 10)
        put_number(number / 10);
    put_byte((uint8_t)('0' + number % 10));
}

_Noreturn void __kit_fail(int value, const char *before, uint64_t number, const char *after)
{
    __kit_end_with_others();
    __kit_flush_output();
    put_words(before);
    put_number(number);
    put_words(after);
    __kit_end_all(value);
}

static const uint64_t unused_stack = 0x5afe57ac5afe57ac;

void __kit_look_at_stack(void)
{
    if (*__kit_harts[__kit_hart_here].mark != unused_stack)
        __kit_fail(STACK_TOO_SMALL, "the stack of hart ", __kit_hart_here, " was too small\n");
}

_Noreturn void _exit(int value)
{
    __kit_end_with_others();
    __kit_look_at_stack();
    __kit_flush_output();
    __kit_end_all(value);
}

_Noreturn void abort(void)
{
    _exit(ABORTED);
}

// Beginnings.

// Gives the hart the variables of a new thread, as they are at first.
static void begins_thread(unsigned hart, struct __kit_thread *thread)
{
    char *own;
    __asm__("mv %0, tp" : "=r"(own));
    memcpy(own, __tdata_start, (size_t)__tdata_size);
    memset(own + (size_t)__tdata_size, 0, (size_t)__tls_size - (size_t)__tdata_size);
    __kit_hart_here = hart;
    __kit_self = thread;
    if (thread)
        __kit_handle = __kit_name_of(thread);
}

// Each hart begins here, on its stack, whose lowest word gets a mark.
void __kit_hart_begins(uint64_t hart, uint64_t all, uint64_t *lowest)
{
    *lowest = unused_stack;
    __kit_harts[hart].mark = lowest;
    __kit_hart_count = all; // each hart stores the same
    begins_thread((unsigned)hart, hart == 0 ? &__kit_main_thread : 0);
}

static void call_all(void (**first)(void), void (**end)(void))
{
    for (; first < end; first++)
        (*first)();
}

static _Noreturn void runs_main(void)
{
    enum { MOST_WORDS = 63 };
    static char *__kit_words[MOST_WORDS + 1];
    int count = 0;
    for (char *word = __kit_arguments; *word && count < MOST_WORDS; word += strlen(word) + 1)
        __kit_words[count++] = word;
    call_all(__preinit_array_start, __preinit_array_end);
    call_all(__init_array_start, __init_array_end);
    exit(main(count, __kit_words, &__kit_words[count]));
}

// The fence comes before the look at __kit_ended, and that of __kit_end_all before it stores the job: so either is seen.
void __kit_hart_is_idle(void)
{
    __kit_harts[__kit_hart_here].job = 0;
    full_fence();
    __kit_end_with_others();
}

static struct __kit_thread *next_job(struct __kit_hart *hart)
{
    struct __kit_thread *job;
    while (!(job = hart->job))
        __kit_end_part(); // as __kit_wait_a_round, with one load less: __kit_end_all gives idle harts a job
    acquire_fence();
    __kit_end_with_others();
    return job;
}

// What a hart does over and over: it waits for a thread, and runs it. Hart 0 runs main first.
void __kit_hart_works(void)
{
    unsigned number = __kit_hart_here;
    struct __kit_hart *hart = &__kit_harts[number];
    if (number == 0 && !(__kit_main_thread.fate & ENDED))
        runs_main();
    struct __kit_thread *thread = next_job(hart);
    begins_thread(number, thread);
    while (thread->gate && *thread->gate == thread->closed && round_number() < thread->begins_anyhow)
        __kit_end_with_others();
    __kit_thread_ends(thread->run(thread->argument));
}
