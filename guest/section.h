// A section of a program in which one hart at a time should be, and which notices where that isn't so.
#ifndef SECTION_H
#define SECTION_H

#include "dethart.h"

// The two are equal wherever no hart is in the section.
struct section {
    volatile uint64_t first, second;
};

// Goes through it. False: the two differ, so another hart is in it, or what it wrote isn't all there.
static inline bool pass(struct section *section)
{
    uint64_t seen = section->first;
    if (section->second != seen)
        return false;
    section->first = seen + 1;
    section->second = seen + 1;
    return true;
}

#endif
