// A function of stdio that is called whole, under the lock of the streams. The names are those of ld's --wrap: what calls NAME
// gets __wrap_NAME, and __real_NAME is picolibc's.
#ifndef WHOLE_H
#define WHOLE_H

#include <stdarg.h>
#include <stdio.h>

#define WHOLE(type, name, parameters, arguments, stream) \
    type __real_##name parameters;                       \
    type __wrap_##name parameters;                       \
    type __wrap_##name parameters                        \
    {                                                    \
        flockfile(stream);                               \
        type result = __real_##name arguments;           \
        funlockfile(stream);                             \
        return result;                                   \
    }

#endif
