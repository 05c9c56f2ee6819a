// Messages on standard error: assert, err and error.
#include <err.h>
#include <errno.h>
#include <error.h>
#include <stdarg.h>
#include <stdio.h>
#include <stdlib.h>
#include <string.h>

extern char __kit_arguments[]; // begins with the program's name

// Puts it all out as one: `name: text: what the error is`.
static void say(const char *format, va_list rest, int error)
{
    flockfile(stderr);
    fprintf(stderr, "%s: ", __kit_arguments);
    if (format)
        vfprintf(stderr, format, rest);
    if (error)
        fprintf(stderr, "%s%s", format ? ": " : "", strerror(error));
    fputc('\n', stderr);
    funlockfile(stderr);
}

void vwarnc(int error, const char *format, va_list rest) { say(format, rest, error); }
void vwarn(const char *format, va_list rest) { say(format, rest, errno); }
void vwarnx(const char *format, va_list rest) { say(format, rest, 0); }

void verrc(int value, int error, const char *format, va_list rest)
{
    say(format, rest, error);
    exit(value);
}

void verr(int value, const char *format, va_list rest) { verrc(value, errno, format, rest); }
void verrx(int value, const char *format, va_list rest) { verrc(value, 0, format, rest); }

#define WITH_REST(call)          \
    va_list rest;                \
    va_start(rest, format);      \
    call;                        \
    va_end(rest)

void warnc(int error, const char *format, ...) { WITH_REST(vwarnc(error, format, rest)); }
void warn(const char *format, ...) { WITH_REST(vwarn(format, rest)); }
void warnx(const char *format, ...) { WITH_REST(vwarnx(format, rest)); }
void errc(int value, int error, const char *format, ...) { WITH_REST(verrc(value, error, format, rest)); }
void err(int value, const char *format, ...) { WITH_REST(verr(value, format, rest)); }
void errx(int value, const char *format, ...) { WITH_REST(verrx(value, format, rest)); }

void error(int value, int number, const char *format, ...)
{
    WITH_REST(say(format, rest, number));
    if (value)
        exit(value);
}
