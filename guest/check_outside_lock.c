// An account holds 100, and each hart takes 60 from it if there is enough. The test stands outside the lock, so that two harts
// may pass it before either has taken its part, and the account is overdrawn.
// The exit value of each hart is 1 if it is, in the end. Mended, the test stands inside the lock.
#include "barrier.h"
#include "dethart.h"
#include "lock.h"

enum { PART = 60 };

static struct lock lock;
static volatile int64_t account = 100;
static struct barrier finished;

static void take_part(void)
{
#ifdef MENDED
    take_lock(&lock);
    if (account >= PART)
        account = account - PART;
    free_lock(&lock);
#else
    if (account >= PART) {
        take_lock(&lock);
        account = account - PART;
        free_lock(&lock);
    }
#endif
}

uint64_t hart_main(uint64_t hart, uint64_t harts)
{
    (void)hart;
    take_part();
    barrier_wait(&finished, harts);
    return account < 0;
}
