// Each hart goes into a section under a lock that it takes by an AMOSWAP and frees by a store. The AMOSWAP orders nothing of itself,
// so the fences do.
// A hart that isn't alone in the section exits with 1.
#include "dethart.h"
#include "fence.h"
#include "relaxed.h"
#include "section.h"

enum { TIMES = 3 };

static volatile uint64_t taken;
static struct section section;

static void take(void)
{
    while (relaxed_swap(&taken, 1) != 0)
        ;
    FENCE(1, r, rw);
}

static void release(void)
{
    FENCE(2, rw, w);
    taken = 0;
}

uint64_t hart_main(uint64_t hart, uint64_t harts)
{
    (void)hart;
    (void)harts;
    for (int i = 0; i < TIMES; i++) {
        take();
        bool is_alone = pass(&section);
        release();
        if (!is_alone)
            return 1;
    }
    return 0;
}
