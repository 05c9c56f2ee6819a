// Threads, mutexes, conditions, keys and atomics of C11, also atomics of one and two bytes.
#include <assert.h>
#include <stdatomic.h>
#include <stdbool.h>
#include <stdio.h>
#include <threads.h>
#include <unistd.h>

enum { TURNS = 5, MOST = 63 };

static atomic_int all;
static atomic_uchar byte;
static _Atomic short half;
static _Atomic long words;
static atomic_bool is_done;
static mtx_t lock;
static cnd_t changed;
static int plain, running, inits;
static once_flag once = ONCE_FLAG_INIT;
static tss_t key;
static thread_local int own;

static void init(void) { inits++; }

static int works(void *me)
{
    call_once(&once, init);
    tss_set(key, &own);
    for (int i = 0; i < TURNS; i++) {
        atomic_fetch_add(&all, 1);
        atomic_fetch_add_explicit(&byte, 3, memory_order_relaxed);
        half -= 1;
        words |= 1L << (long)me;
        mtx_lock(&lock);
        plain++;
        mtx_unlock(&lock);
        own++;
    }
    assert(tss_get(key) == &own);
    mtx_lock(&lock);
    running--;
    cnd_broadcast(&changed);
    mtx_unlock(&lock);
    atomic_exchange(&is_done, true);
    return own;
}

int main(void)
{
    int workers = (int)sysconf(_SC_NPROCESSORS_ONLN) - 1, result;
    thrd_t threads[MOST];
    running = workers;
    assert(mtx_init(&lock, mtx_plain) == thrd_success && cnd_init(&changed) == thrd_success && tss_create(&key, NULL) == thrd_success);
    for (long i = 0; i < workers; i++)
        assert(thrd_create(&threads[i], works, (void *)i) == thrd_success);
    mtx_lock(&lock);
    while (running)
        cnd_wait(&changed, &lock);
    mtx_unlock(&lock);
    for (int i = 0; i < workers; i++) {
        assert(thrd_join(threads[i], &result) == thrd_success && result == TURNS);
    }
    int turns = TURNS * workers;
    assert(atomic_load(&all) == turns && plain == turns && byte == (unsigned char)(3 * turns) && half == -turns);
    assert(words == (1L << workers) - 1 && inits == 1 && is_done);
    puts("C11");
    return 0;
}
