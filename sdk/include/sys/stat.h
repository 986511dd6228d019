/* Newlib's, and what it declares for other targets only: lstat, mknod, and Linux's numbers of utimensat. */
#include_next <sys/stat.h>
#ifndef _FLAT_SYS_STAT_H
#define _FLAT_SYS_STAT_H
#define UTIME_NOW 0x3fffffff
#define UTIME_OMIT 0x3ffffffe
#ifdef __cplusplus
extern "C" {
#endif
int lstat(const char *__restrict path, struct stat *__restrict result);
int mknod(const char *path, mode_t mode, dev_t device);
#ifdef __cplusplus
}
#endif
#endif
