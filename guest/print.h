// Text and numbers to the output, which all harts share: see that one hart at a time prints.
#ifndef PRINT_H
#define PRINT_H

#include "dethart.h"

static inline void print_text(const char *text)
{
    for (; *text; text++)
        put_byte(*text);
}

static inline void print_number(uint64_t number)
{
    if (number >= 10)
        print_number(number / 10);
    put_byte('0' + number % 10);
}

#endif
