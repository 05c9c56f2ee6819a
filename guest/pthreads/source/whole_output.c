// Output, each call whole: printf, vprintf and fprintf by vfprintf.
#include <errno.h>
#include <string.h>
#include "whole.h"

WHOLE(int, vfprintf, (FILE *stream, const char *format, va_list rest), (stream, format, rest), stream)
WHOLE(int, fputs, (const char *text, FILE *stream), (text, stream), stream)
WHOLE(int, puts, (const char *text), (text), stdout)
WHOLE(int, fputc, (int c, FILE *stream), (c, stream), stream)
WHOLE(int, putc, (int c, FILE *stream), (c, stream), stream)
WHOLE(int, putchar, (int c), (c), stdout)
WHOLE(size_t, fwrite, (const void *from, size_t size, size_t count, FILE *stream), (from, size, count, stream), stream)

int putc_unlocked(int c, FILE *stream) { return __real_fputc(c, stream); }
int putchar_unlocked(int c) { return __real_fputc(c, stdout); }
