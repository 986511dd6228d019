/* 53 fchmodat(folder, path, mode), 52 fchmod(fd, mode). The machine of flatc has no modes: ENOSYS. */
#include <fcntl.h>
#include <sys/stat.h>
#include "kernel.h"

int chmod(const char *path, mode_t mode)
{
    return __flat_answer(kernel3(53, LINUX_AT_FDCWD, (long)path, mode));
}

int fchmod(int fd, mode_t mode)
{
    return __flat_answer(kernel3(52, fd, mode, 0));
}

int fchmodat(int folder, const char *path, mode_t mode, int flags)
{
    (void)flags;
    return __flat_answer(kernel3(53, __flat_folder(folder), (long)path, mode));
}
