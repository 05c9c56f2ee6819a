// Input, each call whole: scanf and fscanf by vfscanf.
#include "whole.h"

WHOLE(int, vfscanf, (FILE *stream, const char *format, va_list rest), (stream, format, rest), stream)
WHOLE(char *, fgets, (char *to, int size, FILE *stream), (to, size, stream), stream)
WHOLE(int, fgetc, (FILE *stream), (stream), stream)
WHOLE(int, getc, (FILE *stream), (stream), stream)
WHOLE(int, getchar, (void), (), stdin)
WHOLE(int, ungetc, (int c, FILE *stream), (c, stream), stream)
WHOLE(size_t, fread, (void *to, size_t size, size_t count, FILE *stream), (to, size, count, stream), stream)

int getc_unlocked(FILE *stream) { return __real_fgetc(stream); }
int getchar_unlocked(void) { return __real_fgetc(stdin); }
