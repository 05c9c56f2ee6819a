// What libstdc++'s headers want of its library, which is there for other processors only: new and delete, static variables of
// functions, counts of shared pointers, threads, conditions, once, waits, clocks. There are no exceptions: where one would be thrown,
// the program aborts.
#include <bits/functexcept.h>
#include <chrono>
#include <condition_variable>
#include <errno.h>
#include <memory>
#include <mutex>
#include <new>
#include <sched.h>
#include <stdarg.h>
#include <stdlib.h>
#include <string>
#include <syscall.h>
#include <thread>
#include <time.h>
#include <unistd.h>

void *operator new(size_t size)
{
    if (void *room = malloc(size ? size : 1))
        return room;
    abort();
}

void *operator new(size_t size, std::align_val_t alignment)
{
    if (void *room = aligned_alloc(static_cast<size_t>(alignment), size))
        return room;
    abort();
}

void *operator new[](size_t size) { return operator new(size); }
void *operator new[](size_t size, std::align_val_t alignment) { return operator new(size, alignment); }
void *operator new(size_t size, const std::nothrow_t &) noexcept { return malloc(size ? size : 1); }
void *operator new[](size_t size, const std::nothrow_t &) noexcept { return malloc(size ? size : 1); }
void operator delete(void *room) noexcept { free(room); }
void operator delete(void *room, size_t) noexcept { free(room); }
void operator delete(void *room, std::align_val_t) noexcept { free(room); }
void operator delete(void *room, size_t, std::align_val_t) noexcept { free(room); }
void operator delete[](void *room) noexcept { free(room); }
void operator delete[](void *room, size_t) noexcept { free(room); }
void operator delete[](void *room, std::align_val_t) noexcept { free(room); }
void operator delete[](void *room, size_t, std::align_val_t) noexcept { free(room); }

extern "C" {

void *__dso_handle;

void __cxa_pure_virtual() { abort(); }

// A static variable of a function is initialised once: its guard is 0 at first, 1 in its first byte when that is done.
int __cxa_guard_acquire(volatile unsigned *guard)
{
    for (;;) {
        unsigned now = __atomic_load_n(guard, __ATOMIC_ACQUIRE);
        if (now & 1)
            return 0;
        if (now == 0 && __atomic_compare_exchange_n(guard, &now, 256, false, __ATOMIC_ACQUIRE, __ATOMIC_RELAXED))
            return 1;
        sched_yield();
    }
}

void __cxa_guard_release(volatile unsigned *guard) { __atomic_store_n(guard, 1, __ATOMIC_RELEASE); }
void __cxa_guard_abort(volatile unsigned *guard) { __atomic_store_n(guard, 0, __ATOMIC_RELEASE); }

}

// The variables of a thread that have destructors: a key's value is the last one that was made.

namespace {

struct Made {
    void (*destroy)(void *);
    void *object;
    Made *before;
};

pthread_once_t made_once = PTHREAD_ONCE_INIT;
pthread_key_t last_made;

void destroy_all(void *last)
{
    for (Made *made = static_cast<Made *>(last); made;) {
        Made *before = made->before;
        made->destroy(made->object);
        delete made;
        made = before;
    }
}

void destroy_those_of_main()
{
    destroy_all(pthread_getspecific(last_made));
}

void make_key()
{
    if (pthread_key_create(&last_made, destroy_all) || atexit(destroy_those_of_main))
        abort();
}

}

extern "C" int __cxa_thread_atexit(void (*destroy)(void *), void *object, void *)
{
    pthread_once(&made_once, make_key);
    void *before = pthread_getspecific(last_made);
    return pthread_setspecific(last_made, new Made{destroy, object, static_cast<Made *>(before)});
}

// The counts of std::shared_ptr.
namespace __gnu_cxx {

int __exchange_and_add(volatile int *count, int more) noexcept { return __atomic_fetch_add(count, more, __ATOMIC_ACQ_REL); }
void __atomic_add(volatile int *count, int more) noexcept { __atomic_fetch_add(count, more, __ATOMIC_ACQ_REL); }

}

namespace std {

void terminate() noexcept { abort(); }
void __throw_bad_alloc() { abort(); }
void __throw_bad_array_new_length() { abort(); }
void __throw_bad_cast() { abort(); }
void __throw_bad_function_call() { abort(); }
void __throw_domain_error(const char *) { abort(); }
void __throw_invalid_argument(const char *) { abort(); }
void __throw_length_error(const char *) { abort(); }
void __throw_logic_error(const char *) { abort(); }
void __throw_out_of_range(const char *) { abort(); }
void __throw_out_of_range_fmt(const char *, ...) { abort(); }
void __throw_overflow_error(const char *) { abort(); }
void __throw_runtime_error(const char *) { abort(); }
void __throw_system_error(int) { abort(); }

// What std::make_shared asks of a pointer's block: without type_info the address of its tag, which was compared before, says it all.
bool _Sp_make_shared_tag::_S_eq(const type_info &) noexcept { return false; }

// The functions of std::string.
template class basic_string<char>;

// A number for bytes: FNV-1a.
size_t _Hash_bytes(const void *bytes, size_t length, size_t seed)
{
    size_t hash = seed ^ 0xcbf29ce484222325;
    for (size_t i = 0; i < length; i++)
        hash = (hash ^ static_cast<const unsigned char *>(bytes)[i]) * 0x100000001b3;
    return hash;
}

// Threads.

thread::_State::~_State() = default;

static void *runs(void *state)
{
    thread::_State_ptr owned(static_cast<thread::_State *>(state));
    owned->_M_run();
    return nullptr;
}

void thread::_M_start_thread(_State_ptr state, void (*)())
{
    if (pthread_create(&_M_id._M_thread, nullptr, runs, state.get()))
        abort();
    state.release();
}

void thread::join()
{
    if (pthread_join(_M_id._M_thread, nullptr))
        abort();
    _M_id = id();
}

void thread::detach()
{
    if (pthread_detach(_M_id._M_thread))
        abort();
    _M_id = id();
}

unsigned thread::hardware_concurrency() noexcept { return static_cast<unsigned>(sysconf(_SC_NPROCESSORS_ONLN)); }

// Conditions.

condition_variable::condition_variable() noexcept = default;
condition_variable::~condition_variable() noexcept { pthread_cond_destroy(native_handle()); }
void condition_variable::wait(unique_lock<mutex> &lock) { pthread_cond_wait(native_handle(), lock.mutex()->native_handle()); }
void condition_variable::notify_one() noexcept { pthread_cond_signal(native_handle()); }
void condition_variable::notify_all() noexcept { pthread_cond_broadcast(native_handle()); }

// Once: what runs is handed over in variables of the thread.

__thread void *__once_callable;
__thread void (*__once_call)();
extern "C" void __once_proxy() { __once_call(); }

// The waits of C++20's atomics, semaphores, latches and barriers: libstdc++ makes them of Linux's futex.

static bool is_over(const timespec &until)
{
    timespec now;
    clock_gettime(CLOCK_MONOTONIC, &now);
    return now.tv_sec != until.tv_sec ? now.tv_sec > until.tv_sec : now.tv_nsec >= until.tv_nsec;
}

// Waits until the word isn't `value` any more, or until this time. Who waits looks each round, so that nobody has to be woken.
static int await_change(const volatile int *word, int value, const timespec *until)
{
    while (*word == value) {
        if (until && is_over(*until))
            return ETIMEDOUT;
        sched_yield();
    }
    __atomic_thread_fence(__ATOMIC_ACQUIRE);
    return 0;
}

extern "C" long syscall(long number, ...)
{
    enum { WAIT = 0, WAKE = 1, WAIT_UNTIL = 9, OF_THIS_PROCESS = 128 };
    va_list rest;
    va_start(rest, number);
    const volatile int *word = va_arg(rest, const volatile int *);
    int operation = va_arg(rest, int) & ~OF_THIS_PROCESS, value = va_arg(rest, int);
    int error = number == SYS_futex && operation == WAKE ? 0 : ENOSYS;
    if (number == SYS_futex && (operation == WAIT || operation == WAIT_UNTIL))
        error = await_change(word, value, operation == WAIT ? nullptr : va_arg(rest, const timespec *));
    va_end(rest);
    errno = error;
    return error ? -1 : 0;
}

// Clocks.

template <class Clock>
static typename Clock::time_point now(clockid_t clock)
{
    timespec time;
    clock_gettime(clock, &time);
    return typename Clock::time_point(chrono::duration_cast<typename Clock::duration>(chrono::seconds(time.tv_sec) + chrono::nanoseconds(time.tv_nsec)));
}

namespace chrono {
inline namespace _V2 {
system_clock::time_point system_clock::now() noexcept { return std::now<system_clock>(CLOCK_REALTIME); }
steady_clock::time_point steady_clock::now() noexcept { return std::now<steady_clock>(CLOCK_MONOTONIC); }
}
}

}
