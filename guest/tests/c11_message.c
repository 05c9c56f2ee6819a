// A message by C11's atomics: hart 0 stores the data and then, by a release store, that they are there. Hart 1 waits for that by acquire
// loads, and exits with 0 where it reads the data.
#include <stdatomic.h>
#include "dethart.h"

static uint64_t data;
static _Atomic uint64_t is_there;

uint64_t hart_main(uint64_t hart, uint64_t harts)
{
    (void)harts;
    if (hart == 0) {
        data = 1;
        atomic_store_explicit(&is_there, 1, memory_order_release);
        return 0;
    }
    while (!atomic_load_explicit(&is_there, memory_order_acquire))
        full_fence();
    return data == 1 ? 0 : 1;
}
