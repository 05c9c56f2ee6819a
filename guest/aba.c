// A stack of three nodes, from which harts pop without a lock: a hart reads the top and the node below it, and then puts that one
// in place of the top if the top is still the same. Hart 1 pops two nodes, keeps the second, and pushes the first again: the
// top is the same then, but the node below it is not. A hart that had read both before puts the kept node on the stack.
// The exit value of each hart is 1 if the node that hart 1 keeps is on the stack in the end. Mended, the top has a count of its
// changes beside it, so that it is never the same again.
#include "barrier.h"
#include "dethart.h"

struct node {
    volatile uint64_t below; // the number of a node, or 0
};

// Nodes 1, 2, 3: 1 is on 2, and 2 on 3.
static struct node nodes[4] = { { 0 }, { 2 }, { 3 }, { 0 } };
static volatile uint64_t top = 1;
static volatile uint64_t kept;
static struct barrier finished;

// What `top` holds: a node, and mended a count of its changes.
#ifdef MENDED
enum { ONE_CHANGE = 256 };
#else
enum { ONE_CHANGE = 0 };
#endif

static uint64_t node_of(uint64_t word)
{
    return word % 256;
}

static uint64_t changed_to(uint64_t node, uint64_t word)
{
    return word - node_of(word) + ONE_CHANGE + node;
}

static uint64_t pop(void)
{
    for (;;) {
        uint64_t seen = top;
        uint64_t node = node_of(seen);
        if (node == 0)
            return 0;
        uint64_t below = nodes[node].below;
        if (compare_exchange(&top, seen, changed_to(below, seen)))
            return node;
    }
}

static void push(uint64_t node)
{
    for (;;) {
        uint64_t seen = top;
        nodes[node].below = node_of(seen);
        release_fence();
        if (compare_exchange(&top, seen, changed_to(node, seen)))
            return;
    }
}

static bool is_on_stack(uint64_t wanted)
{
    uint64_t node = node_of(top);
    for (int i = 0; i < 3 && node != 0; i++) {
        if (node == wanted)
            return true;
        node = nodes[node].below;
    }
    return false;
}

uint64_t hart_main(uint64_t hart, uint64_t harts)
{
    if (hart == 1) {
        uint64_t first = pop();
        kept = pop();
        if (first != 0)
            push(first);
    } else {
        pop();
    }
    barrier_wait(&finished, harts);
    return kept != 0 && is_on_stack(kept);
}
