/* 49 chdir(path), 50 fchdir(fd), 51 chroot(path). The machine of flatc has none of them: ENOSYS. */
#include <unistd.h>
#include "kernel.h"

int chdir(const char *path)
{
    return __flat_answer(kernel3(49, (long)path, 0, 0));
}

int fchdir(int fd)
{
    return __flat_answer(kernel3(50, fd, 0, 0));
}

int chroot(const char *path)
{
    return __flat_answer(kernel3(51, (long)path, 0, 0));
}
