// Hart 0 fills nodes and publishes each by a pointer to it. The others read the pointer, and the node behind it: the address depends
// on the pointer, which orders the two loads.
// The exit value of a reader is 1 if it saw a node that wasn't filled.
#include "dethart.h"
#include "fence.h"

enum { NODES = 4, READS = 8 };

struct node {
    volatile uint64_t value;
};

static struct node nodes[NODES];
static struct node *volatile published;

static void publish(struct node *node)
{
    node->value = 1;
    FENCE(1, w, w);
    published = node;
}

static bool saw_unfilled(void)
{
    struct node *node = published;
    return node != 0 && node->value == 0;
}

uint64_t hart_main(uint64_t hart, uint64_t harts)
{
    (void)harts;
    if (hart == 0) {
        for (int i = 0; i < NODES; i++)
            publish(&nodes[i]);
        return 0;
    }
    for (int i = 0; i < READS; i++)
        if (saw_unfilled())
            return 1;
    return 0;
}
