// Hart 0 writes a pair of numbers that are always equal, one after the other. The other harts read both. A round of the
// reader may end between its two loads, and then it has the first of an old pair and the second of a new one.
// The exit value of a reader is 1 if it saw two numbers that differ. Mended, both sides take a lock.
#include "dethart.h"
#include "lock.h"

enum { TIMES = 8 };

static struct {
    volatile uint64_t first;
    volatile uint64_t second;
} pair;

#ifdef MENDED
static struct lock lock;
static void begin(void) { take_lock(&lock); }
static void end(void) { free_lock(&lock); }
#else
static void begin(void) {}
static void end(void) {}
#endif

static void write_pair(uint64_t number)
{
    begin();
    pair.first = number;
    pair.second = number;
    end();
}

static bool read_is_torn(void)
{
    begin();
    uint64_t first = pair.first;
    uint64_t second = pair.second;
    end();
    return first != second;
}

uint64_t hart_main(uint64_t hart, uint64_t harts)
{
    (void)harts;
    uint64_t torn = 0;
    for (uint64_t i = 1; i <= TIMES; i++) {
        if (hart == 0)
            write_pair(i);
        else if (read_is_torn())
            torn = 1;
    }
    return torn;
}
