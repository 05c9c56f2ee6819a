// Each hart goes into a section under an MCS lock: harts queue up, each behind a node of its own, and one that leaves wakes the next.
// A hart that isn't alone in the section exits with 1.
#include "dethart.h"
#include "fence.h"
#include "relaxed.h"
#include "section.h"

enum { TIMES = 3, HARTS = 64 };

struct node {
    struct node *volatile next;
    volatile uint64_t waits;
};

static struct node nodes[HARTS];
static volatile uint64_t last; // the address of a node, or 0
static struct section section;

static void take(struct node *node)
{
    node->next = 0;
    node->waits = 1;
    FENCE(1, w, w);
    struct node *before = (struct node *)relaxed_swap(&last, (uint64_t)node);
    if (before) {
        before->next = node;
        while (node->waits)
            ;
    }
    FENCE(2, r, rw);
}

static void release(struct node *node)
{
    FENCE(3, rw, w);
    if (!node->next && relaxed_compare_exchange(&last, (uint64_t)node, 0))
        return;
    while (!node->next)
        ;
    node->next->waits = 0;
}

uint64_t hart_main(uint64_t hart, uint64_t harts)
{
    (void)harts;
    struct node *node = &nodes[hart];
    for (int i = 0; i < TIMES; i++) {
        take(node);
        bool is_alone = pass(&section);
        release(node);
        if (!is_alone)
            return 1;
    }
    return 0;
}
