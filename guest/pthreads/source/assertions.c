// A failed assert: its text on standard error, as with glibc, and the value of abort.
#include <stdio.h>
#include <stdlib.h>

_Noreturn void __assert_func(const char *file, int line, const char *function, const char *what)
{
    fprintf(stderr, "%s:%d: %s: Assertion `%s' failed.\n", file, line, function ? function : "", what);
    abort();
}

_Noreturn void __assert_fail(const char *what, const char *file, unsigned line, const char *function)
{
    __assert_func(file, (int)line, function, what);
}
