/* 414 ppoll_time64(records, count, time, mask, 8). The machine of flatc has no such call, and what a file or the console has is
   there at once; so where the kernel answers ENOSYS, each open descriptor is ready for what is asked. A read of an empty pipe
   then waits. With no descriptor that is asked for anything it is a sleep, by 407 clock_nanosleep. */
#include <poll.h>
#include <time.h>
#include "kernel.h"

static long ready(struct pollfd *fds, nfds_t count)
{
    long found = 0;
    for (nfds_t i = 0; i < count; i++) {
        long long position;
        short asked = fds[i].events & (POLLIN | POLLOUT | POLLRDNORM | POLLWRNORM);
        enum { SEEK_FROM_HERE = 1 };
        if (fds[i].fd < 0)
            asked = 0;
        else if (kernel6(62, fds[i].fd, 0, 0, (long)&position, SEEK_FROM_HERE, 0) == -LINUX_EBADF)
            asked = POLLNVAL;
        fds[i].revents = asked;
        found += asked != 0;
    }
    return found;
}

int ppoll(struct pollfd *fds, nfds_t count, const struct timespec *time, const __sigset_t *mask)
{
    struct timespec given;
    if (time)
        given = *time; /* the kernel writes there what is left */
    long reply = kernel6(414, (long)fds, (long)count, (long)(time ? &given : 0), (long)mask, sizeof *mask, 0);
    if (reply == -LINUX_ENOSYS && count) {
        reply = ready(fds, count);
        if (!reply && time && !time->tv_sec && !time->tv_nsec)
            return 0;
        if (!reply)
            reply = -LINUX_ENOSYS;
    }
    if (reply == -LINUX_ENOSYS && time)
        reply = kernel6(407, CLOCK_MONOTONIC, 0, (long)time, 0, 0, 0);
    return __flat_answer(reply);
}

int poll(struct pollfd *fds, nfds_t count, int milliseconds)
{
    struct timespec time = {milliseconds / 1000, milliseconds % 1000 * 1000000};
    return ppoll(fds, count, milliseconds < 0 ? 0 : &time, 0);
}

/* Until a signal comes. */
int pause(void)
{
    return poll(0, 0, -1);
}
