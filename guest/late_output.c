// As late_exit.c, but hart 1 exits with 0 in any case: if the number was old, it puts out `?`.
#include "dethart.h"
#include "fence.h"
#include "late.h"

uint64_t hart_main(uint64_t hart, uint64_t harts)
{
    (void)harts;
    if (hart == 0)
        send();
    if (hart == 1 && !receive())
        put_byte('?');
    return 0;
}
