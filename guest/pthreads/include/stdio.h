#ifndef DETHART_STDIO_H
#define DETHART_STDIO_H
#include_next <stdio.h>
#ifdef __cplusplus
extern "C" {
#endif
void flockfile(FILE *);
int ftrylockfile(FILE *);
void funlockfile(FILE *);
int getc_unlocked(FILE *);
int getchar_unlocked(void);
int putc_unlocked(int, FILE *);
int putchar_unlocked(int);
#ifdef __cplusplus
}
#endif
#endif
