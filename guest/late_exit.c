// Hart 0 writes a number and raises a flag. Hart 1 waits for the flag and reads the number; where that is old, it looks for some time
// whether somebody repairs that, and nobody does. The other harts do nothing.
// The exit value of hart 1 is 1 if the number was old.
#include "dethart.h"
#include "fence.h"
#include "late.h"

uint64_t hart_main(uint64_t hart, uint64_t harts)
{
    (void)harts;
    if (hart == 0)
        send();
    return hart == 1 && !receive();
}
