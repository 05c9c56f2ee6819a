// A number that is sent once. A receiver that gets an old one notices it late: more than ten times as many instructions later than a run
// takes in which the number is there.
#ifndef LATE_H
#define LATE_H

#include "dethart.h"
#include "fence.h"

enum { LOOKS = 2400 };

static volatile uint64_t data, flag, repaired;

static void send(void)
{
    data = 1;
    FENCE(1, w, w);
    flag = 1;
}

// Nobody repairs it.
static bool is_repaired(void)
{
    for (int i = 0; i < LOOKS; i++)
        if (repaired)
            return true;
    return false;
}

// False: the number is old.
static bool receive(void)
{
    while (!flag)
        ;
    FENCE(2, r, r);
    return data == 1 || is_repaired();
}

#endif
