/* 48 faccessat(folder, path, mode). The machine of flatc has no such call; where the kernel answers ENOSYS, 56 openat tells
   whether the path leads to something. There all may be read; a program alone can't be written, and it and a folder may be
   executed. */
#include <fcntl.h>
#include <unistd.h>
#include "kernel.h"

long __flat_writing(int folder, const char *path)
{
    long fd = kernel3(56, folder, (long)path, 1);
    if (fd >= 0)
        kernel3(57, fd, 0, 0);
    return fd;
}

static long allowed(int folder, const char *path, int mode)
{
    long reply = kernel3(48, folder, (long)path, mode);
    if (reply != -LINUX_ENOSYS)
        return reply;
    long fd = kernel3(56, folder, (long)path, 0);
    if (fd < 0)
        return fd;
    kernel3(57, fd, 0, 0);
    if (!(mode & (W_OK | X_OK)))
        return 0;
    long writing = __flat_writing(folder, path);
    int executes = writing == -LINUX_EACCES || writing == -LINUX_EISDIR;
    int refused = (mode & W_OK && writing == -LINUX_EACCES) || (mode & X_OK && !executes);
    return refused ? -LINUX_EACCES : 0;
}

int access(const char *path, int mode)
{
    return __flat_answer(allowed(LINUX_AT_FDCWD, path, mode));
}

int faccessat(int folder, const char *path, int mode, int flags)
{
    (void)flags; /* there is one user */
    return __flat_answer(allowed(__flat_folder(folder), path, mode));
}
