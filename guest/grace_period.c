// Read-copy-update: hart 0 puts a new node in place of the old one, waits until the reader, hart 1, isn't in a section that may have the
// old one (a grace period), and spoils that. The other harts do nothing.
// The exit value of hart 1 is 1 if it saw a spoiled node.
#include "dethart.h"
#include "fence.h"

enum { REPLACEMENTS = 2, SECTIONS = 4 };

struct node {
    volatile uint64_t whole;
};

static struct node nodes[1 + REPLACEMENTS] = { { 1 } };
static struct node *volatile current = &nodes[0];
static volatile uint64_t reading;

static void replace(struct node *old, struct node *new)
{
    new->whole = 1;
    FENCE(1, w, w);
    current = new;
    FENCE(2, w, r);
    while (reading)
        continue;
    old->whole = 0;
}

// The address of the node's number depends on what was read of current, which orders the two loads.
static bool saw_spoiled(void)
{
    reading = 1;
    FENCE(3, w, r);
    uint64_t whole = current->whole;
    FENCE(4, r, w);
    reading = 0;
    return !whole;
}

uint64_t hart_main(uint64_t hart, uint64_t harts)
{
    (void)harts;
    if (hart == 0)
        for (int i = 0; i < REPLACEMENTS; i++)
            replace(&nodes[i], &nodes[i + 1]);
    if (hart == 1)
        for (int i = 0; i < SECTIONS; i++)
            if (saw_spoiled())
                return 1;
    return 0;
}
