/* Newlib's, and the lines of POSIX, which it has by other names. */
#include_next <stdio.h>
#ifndef _FLAT_STDIO_H
#define _FLAT_STDIO_H
#ifdef __cplusplus
extern "C" {
#endif
ssize_t getdelim(char **__restrict line, size_t *__restrict room, int end, FILE *__restrict file);
ssize_t getline(char **__restrict line, size_t *__restrict room, FILE *__restrict file);
#ifdef __cplusplus
}
#endif
#endif
