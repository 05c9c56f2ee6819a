// The message of GNU on standard error. The program's name is that of the ELF file.
#ifndef DETHART_ERROR_H
#define DETHART_ERROR_H
#ifdef __cplusplus
extern "C" {
#endif
void error(int, int, const char *, ...) __attribute__((format(printf, 3, 4)));
#ifdef __cplusplus
}
#endif
#endif
