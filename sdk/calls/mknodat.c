/* 33 mknodat(folder, path, mode, device). The machine of flatc has no devices and no FIFOs: ENOSYS. */
#include <fcntl.h>
#include <sys/stat.h>
#include "kernel.h"

int mknodat(int folder, const char *path, mode_t mode, dev_t device)
{
    return __flat_answer(kernel6(33, __flat_folder(folder), (long)path, mode, device, 0, 0));
}

int mknod(const char *path, mode_t mode, dev_t device)
{
    return mknodat(AT_FDCWD, path, mode, device);
}

int mkfifoat(int folder, const char *path, mode_t mode)
{
    return mknodat(folder, path, mode | S_IFIFO, 0);
}

int mkfifo(const char *path, mode_t mode)
{
    return mkfifoat(AT_FDCWD, path, mode);
}
