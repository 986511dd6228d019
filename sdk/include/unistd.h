/* Newlib's, and what Linux has besides. */
#include_next <unistd.h>
#ifndef _FLAT_UNISTD_H
#define _FLAT_UNISTD_H
#ifdef __cplusplus
extern "C" {
#endif
int chroot(const char *path);
pid_t gettid(void);
int sethostname(const char *name, size_t size);
int syncfs(int fd);
int swapoff(const char *path);
int swapon(const char *path, int flags);
long syscall(long number, ...);
#ifdef __cplusplus
}
#endif
#endif
