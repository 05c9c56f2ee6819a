// Two harts take turns in a section by Dekker's algorithm: a hart says that it wants to enter, and goes in if the other doesn't; where
// both do, the one whose turn it isn't steps back until it is. The other harts do nothing.
// A hart that isn't alone in the section exits with 1.
#include "dethart.h"
#include "fence.h"
#include "section.h"

enum { TIMES = 3 };

static volatile uint64_t wants[2];
static volatile uint64_t turn;
static struct section section;

static void ask(uint64_t hart)
{
    wants[hart] = 1;
    FENCE(1, w, r);
}

static void enter(uint64_t hart)
{
    ask(hart);
    while (wants[1 - hart]) {
        if (turn != hart) {
            wants[hart] = 0;
            while (turn != hart)
                ;
            ask(hart);
        }
    }
    FENCE(2, r, rw);
}

static void leave(uint64_t hart)
{
    turn = 1 - hart;
    FENCE(3, rw, w);
    wants[hart] = 0;
}

uint64_t hart_main(uint64_t hart, uint64_t harts)
{
    (void)harts;
    for (int i = 0; i < TIMES && hart < 2; i++) {
        enter(hart);
        bool is_alone = pass(&section);
        leave(hart);
        if (!is_alone)
            return 1;
    }
    return 0;
}
