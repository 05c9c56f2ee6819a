// Each hart prints a line of its own, under a lock.
#include "dethart.h"
#include "lock.h"
#include "print.h"

static struct lock lock;

uint64_t hart_main(uint64_t hart, uint64_t harts)
{
    take_lock(&lock);
    print_text("hart ");
    print_number(hart);
    print_text(" of ");
    print_number(harts);
    print_text("\n");
    free_lock(&lock);
    return 0;
}
