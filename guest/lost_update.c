// Each hart adds 1 ten times to two counters: to one by a load and a store, between which another hart's update is
// lost, and to one by an atomic instruction. Prints both; the exit value is how many updates were lost. Mended, both counters
// are added to by atomic instructions.
#include "barrier.h"
#include "dethart.h"
#include "print.h"

static struct {
    volatile uint64_t plain;
    volatile uint64_t atomic;
} counters;
static struct barrier finished;

static void add_1(void)
{
#ifdef MENDED
    fetch_add(&counters.plain, 1);
#else
    counters.plain = counters.plain + 1;
#endif
}

uint64_t hart_main(uint64_t hart, uint64_t harts)
{
    for (int i = 0; i < 10; i++) {
        add_1();
        fetch_add(&counters.atomic, 1);
    }
    barrier_wait(&finished, harts);

    if (hart == 0) {
        print_text("plain ");
        print_number(counters.plain);
        print_text(", atomic ");
        print_number(counters.atomic);
        print_text("\n");
    }
    return counters.atomic - counters.plain;
}
