// Hart 0 sends numbers to hart 1 through a place for one: it writes the number and marks the place full; hart 1 waits for the mark,
// reads the number, and marks the place empty. The other harts do nothing.
// The exit value of hart 1 is 1 if a number isn't the one that was sent.
#include "dethart.h"
#include "fence.h"

enum { NUMBERS = 4 };

static volatile uint64_t number;
static volatile uint64_t is_full;

static void send(uint64_t sent)
{
    while (is_full)
        ;
    number = sent;
    FENCE(1, w, w);
    is_full = 1;
}

static uint64_t receive(void)
{
    while (!is_full)
        ;
    FENCE(2, r, r);
    uint64_t received = number;
    FENCE(3, r, w);
    is_full = 0;
    return received;
}

uint64_t hart_main(uint64_t hart, uint64_t harts)
{
    (void)harts;
    uint64_t is_wrong = 0;
    for (uint64_t i = 1; i <= NUMBERS; i++) {
        if (hart == 0)
            send(i);
        else if (hart == 1)
            is_wrong |= receive() ^ i;
    }
    return is_wrong != 0;
}
