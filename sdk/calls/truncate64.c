/* 45 truncate64(path, low, high). The machine of flatc has no such call: ENOSYS. */
#include <sys/types.h>
#include <unistd.h>
#include "kernel.h"

int truncate(const char *path, off_t length)
{
    return __flat_answer(kernel3(45, (long)path, (long)length, length < 0 ? -1 : 0));
}
