/* Newlib's, behind the types that it takes for granted, and utime itself. */
#ifndef _FLAT_UTIME_H
#define _FLAT_UTIME_H
#include <sys/types.h>
#include_next <utime.h>
#ifdef __cplusplus
extern "C" {
#endif
int utime(const char *path, const struct utimbuf *times);
#ifdef __cplusplus
}
#endif
#endif
