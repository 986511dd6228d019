/* 24 dup3(old, new, flags): new becomes old. O_CLOEXEC is the only flag; others would be lost on the way, so they are EINVAL
   here. The kernel refuses equal descriptors, for which dup2 only asks whether the descriptor is open: llseek by 0 from here is
   EBADF where it isn't, and changes nothing. */
#define _GNU_SOURCE
#include <errno.h>
#include <fcntl.h>
#include <unistd.h>
#include "kernel.h"

int dup3(int old, int new, int flags)
{
    if (flags & ~O_CLOEXEC) {
        errno = EINVAL;
        return -1;
    }
    return __flat_opened(kernel3(24, old, new, __flat_flags(flags)), flags & O_CLOEXEC);
}

int dup2(int old, int new)
{
    if (old != new)
        return __flat_opened(kernel3(24, old, new, 0), 0);
    long long position;
    if (kernel6(62, old, 0, 0, (long)&position, SEEK_CUR, 0) == -LINUX_EBADF) {
        errno = EBADF;
        return -1;
    }
    return new;
}
