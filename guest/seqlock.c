// Hart 0 writes a pair of equal numbers under a sequence number, which is odd while it does. The others read the pair, and read it
// again where the sequence number was odd or changed meanwhile.
// The exit value of a reader is 1 if it took two numbers that differ for a pair.
#include "dethart.h"
#include "fence.h"

enum { TIMES = 4 };

static volatile uint64_t sequence;
static volatile uint64_t first, second;

static void write_pair(uint64_t number)
{
    uint64_t seen = sequence;
    sequence = seen + 1;
    FENCE(1, w, w);
    first = number;
    second = number;
    FENCE(2, w, w);
    sequence = seen + 2;
}

static bool read_differs(void)
{
    uint64_t seen, a, b;
    do {
        seen = sequence;
        FENCE(3, r, r);
        a = first;
        b = second;
        FENCE(4, r, r);
    } while (seen % 2 != 0 || sequence != seen);
    return a != b;
}

uint64_t hart_main(uint64_t hart, uint64_t harts)
{
    (void)harts;
    for (uint64_t i = 1; i <= TIMES; i++) {
        if (hart == 0)
            write_pair(i);
        else if (read_differs())
            return 1;
    }
    return 0;
}
