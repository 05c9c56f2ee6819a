// Adds up 1 to 256. Each hart writes a part of the numbers, and then adds up the part that the next hart wrote.
// Without the first barrier it would add up numbers that aren't there yet.
#include "barrier.h"
#include "dethart.h"
#include "print.h"

enum { COUNT = 256 };

static uint64_t numbers[COUNT];
static volatile uint64_t total;
static struct barrier written, added;

static void add_to_total(uint64_t amount)
{
    uint64_t seen;
    do
        seen = total;
    while (!compare_exchange(&total, seen, seen + amount));
}

uint64_t hart_main(uint64_t hart, uint64_t harts)
{
    for (uint64_t i = COUNT * hart / harts; i < COUNT * (hart + 1) / harts; i++)
        numbers[i] = i + 1;
    barrier_wait(&written, harts);

    uint64_t next = (hart + 1) % harts, sum = 0;
    for (uint64_t i = COUNT * next / harts; i < COUNT * (next + 1) / harts; i++)
        sum += numbers[i];
    add_to_total(sum);
    barrier_wait(&added, harts);

    if (hart == 0) {
        print_number(total);
        print_text("\n");
    }
    return total;
}
