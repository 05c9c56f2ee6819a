// The locale of C, which is the only one, in place of glibc's.
#ifndef _GLIBCXX_CXX_LOCALE_H
#define _GLIBCXX_CXX_LOCALE_H 1

#include <clocale>

#define _GLIBCXX_NUM_CATEGORIES 0

namespace std {

typedef int *__c_locale;

inline int __convert_from_v(const __c_locale &, char *out, const int size, const char *format, ...)
{
    __builtin_va_list rest;
    __builtin_va_start(rest, format);
    const int length = __builtin_vsnprintf(out, size, format, rest);
    __builtin_va_end(rest);
    return length;
}

}

#endif
