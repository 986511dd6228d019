/* 82 fsync(fd), 83 fdatasync(fd), 267 syncfs(fd), 81 sync(). The machine of flatc has none of them, and its files are in memory,
   where each write stands at once; so where the kernel answers ENOSYS, all that is left to say is whether the descriptor is a file
   or a folder. */
#include <unistd.h>
#include "kernel.h"

static int synchronized(long call, int fd)
{
    long long position;
    long reply = kernel3(call, fd, 0, 0);
    if (reply == -LINUX_ENOSYS) {
        reply = kernel6(62, fd, 0, 0, (long)&position, SEEK_CUR, 0);
        reply = reply == -LINUX_ESPIPE ? -LINUX_EINVAL : reply;
    }
    return __flat_answer(reply);
}

int fsync(int fd)
{
    return synchronized(82, fd);
}

int fdatasync(int fd)
{
    return synchronized(83, fd);
}

int syncfs(int fd)
{
    return synchronized(267, fd);
}

void sync(void)
{
    kernel3(81, 0, 0, 0);
}
