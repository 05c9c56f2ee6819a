// Hart 0 hands a number over to the other harts: it sets a flag, and they wait for the flag and then read the number.
// The flag is set before the number is written, so a round that ends between the two shows the flag alone.
// The exit value of a reader is 1 if it read something else. Mended, the number is written first, and a fence stands between.
#include "dethart.h"

enum { NUMBER = 42 };

static volatile uint64_t number;
static volatile uint64_t flag;

static void hand_over(void)
{
#ifdef MENDED
    number = NUMBER;
    release_fence();
    flag = 1;
#else
    flag = 1;
    number = NUMBER;
#endif
}

static uint64_t wait_and_read(void)
{
    while (flag == 0)
        full_fence();
    acquire_fence();
    return number;
}

uint64_t hart_main(uint64_t hart, uint64_t harts)
{
    (void)harts;
    if (hart == 0) {
        hand_over();
        return 0;
    }
    return wait_and_read() != NUMBER;
}
