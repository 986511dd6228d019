/* 59 pipe2(fds, flags): a pipe, its end to be read and its end to be written. The machine of flatc has O_CLOEXEC alone and
   answers EINVAL to O_NONBLOCK. What else newlib's flags have would be lost on the way, so it is EINVAL here. */
#define _GNU_SOURCE
#include <errno.h>
#include <fcntl.h>
#include <unistd.h>
#include "kernel.h"

int pipe2(int fds[2], int flags)
{
    if (flags & ~(O_CLOEXEC | O_NONBLOCK)) {
        errno = EINVAL;
        return -1;
    }
    long reply = kernel3(59, (long)fds, __flat_flags(flags), 0);
    if (reply == 0) {
        __flat_opened(fds[0], flags & O_CLOEXEC);
        __flat_opened(fds[1], flags & O_CLOEXEC);
    }
    return __flat_answer(reply);
}

int pipe(int fds[2])
{
    return pipe2(fds, 0);
}
