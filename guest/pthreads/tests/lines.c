// Each line is whole, whoever prints it: in any order of the harts, the lines sorted are the same.
#include <stdio.h>
#include "workers.h"

static void *prints(void *me)
{
    printf("worker %ld of %d\n", (long)me, workers());
    return NULL;
}

int main(void)
{
    run_workers(prints);
    return 0;
}
