// The messages of BSD on standard error. The program's name is that of the ELF file.
#ifndef DETHART_ERR_H
#define DETHART_ERR_H
#include <stdarg.h>
#ifdef __cplusplus
extern "C" {
#endif
void warn(const char *, ...) __attribute__((format(printf, 1, 2)));
void warnc(int, const char *, ...) __attribute__((format(printf, 2, 3)));
void warnx(const char *, ...) __attribute__((format(printf, 1, 2)));
void err(int, const char *, ...) __attribute__((noreturn, format(printf, 2, 3)));
void errc(int, int, const char *, ...) __attribute__((noreturn, format(printf, 3, 4)));
void errx(int, const char *, ...) __attribute__((noreturn, format(printf, 2, 3)));
void vwarn(const char *, va_list);
void vwarnc(int, const char *, va_list);
void vwarnx(const char *, va_list);
void verr(int, const char *, va_list) __attribute__((noreturn));
void verrc(int, int, const char *, va_list) __attribute__((noreturn));
void verrx(int, const char *, va_list) __attribute__((noreturn));
#ifdef __cplusplus
}
#endif
#endif
