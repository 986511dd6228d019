/* poll and ppoll with Linux's numbers; newlib has no header for them. */
#ifndef _POLL_H
#define _POLL_H
#include <sys/_sigset.h>
#include <sys/_timespec.h>
#ifdef __cplusplus
extern "C" {
#endif
#define POLLIN 1
#define POLLPRI 2
#define POLLOUT 4
#define POLLERR 8
#define POLLHUP 0x10
#define POLLNVAL 0x20
#define POLLRDNORM 0x40
#define POLLRDBAND 0x80
#define POLLWRNORM 0x100
#define POLLWRBAND 0x200
typedef unsigned long nfds_t;
struct pollfd {
    int fd;
    short events, revents;
};
int poll(struct pollfd *fds, nfds_t count, int milliseconds);
int ppoll(struct pollfd *fds, nfds_t count, const struct timespec *time, const __sigset_t *mask);
#ifdef __cplusplus
}
#endif
#endif
