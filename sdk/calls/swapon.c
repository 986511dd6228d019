/* 224 swapon(path, flags), 225 swapoff(path). The machine of flatc has none of them: ENOSYS. */
#include <unistd.h>
#include "kernel.h"

int swapon(const char *path, int flags)
{
    return __flat_answer(kernel3(224, (long)path, flags, 0));
}

int swapoff(const char *path)
{
    return __flat_answer(kernel3(225, (long)path, 0, 0));
}
