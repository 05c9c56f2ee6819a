// Each hart goes into a section under a ticket lock: it draws the next number, waits until this is served, and then serves the one after
// it.
// A hart that isn't alone in the section exits with 1.
#include "dethart.h"
#include "fence.h"
#include "relaxed.h"
#include "section.h"

enum { TIMES = 3 };

static volatile uint64_t next_ticket, served;
static struct section section;

static void take(void)
{
    uint64_t ticket = relaxed_fetch_add(&next_ticket, 1);
    while (served != ticket)
        ;
    FENCE(1, r, rw);
}

static void release(void)
{
    FENCE(2, rw, w);
    served = served + 1;
}

uint64_t hart_main(uint64_t hart, uint64_t harts)
{
    (void)hart;
    (void)harts;
    for (int i = 0; i < TIMES; i++) {
        take();
        bool is_alone = pass(&section);
        release();
        if (!is_alone)
            return 1;
    }
    return 0;
}
