/* 34 mkdirat(folder, path, mode). */
#include <fcntl.h>
#include <sys/stat.h>
#include "kernel.h"

int mkdirat(int folder, const char *path, mode_t mode)
{
    return __flat_answer(kernel3(34, __flat_folder(folder), (long)path, mode));
}

int mkdir(const char *path, mode_t mode)
{
    return mkdirat(AT_FDCWD, path, mode);
}
