// picolibc's is a loop over bytes, and what a thread begins with is set by it.
#include <stddef.h>
#include <stdint.h>

void *memset(void *to, int value, size_t count)
{
    volatile uint8_t *at = to; // volatile, so that the loops aren't made calls of this function
    for (; count && (uintptr_t)at % 8; count--)
        *at++ = (uint8_t)value;
    for (uint64_t all = (uint8_t)value * 0x0101010101010101u; count >= 8; count -= 8, at += 8)
        *(volatile uint64_t *)at = all;
    for (; count; count--)
        *at++ = (uint8_t)value;
    return to;
}
