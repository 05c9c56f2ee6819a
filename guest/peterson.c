// Two harts take turns in a section by Peterson's algorithm: a hart says that it wants to enter, lets the other go first, and waits
// while the other wants to enter and it isn't its own turn. The other harts do nothing.
// A hart that isn't alone in the section exits with 1.
#include "dethart.h"
#include "fence.h"
#include "section.h"

enum { TIMES = 3 };

static volatile uint64_t wants[2];
static volatile uint64_t turn;
static struct section section;

static void enter(uint64_t hart)
{
    wants[hart] = 1;
    FENCE(1, w, w);
    turn = 1 - hart;
    FENCE(2, w, r);
    while (wants[1 - hart] && turn == 1 - hart)
        ;
    FENCE(3, r, rw);
}

static void leave(uint64_t hart)
{
    FENCE(4, rw, w);
    wants[hart] = 0;
}

uint64_t hart_main(uint64_t hart, uint64_t harts)
{
    (void)harts;
    for (int i = 0; i < TIMES && hart < 2; i++) {
        enter(hart);
        bool is_alone = pass(&section);
        leave(hart);
        if (!is_alone)
            return 1;
    }
    return 0;
}
