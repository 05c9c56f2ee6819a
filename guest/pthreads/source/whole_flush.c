// fflush, whole, also of all streams.
#include "kit.h"
#include "whole.h"

int __real_fflush(FILE *stream);
int __wrap_fflush(FILE *stream);

int __wrap_fflush(FILE *stream)
{
    flockfile(stream);
    int result = __real_fflush(stream ? stream : stdout);
    funlockfile(stream);
    return result;
}
