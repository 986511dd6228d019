/* 63 read(fd, bytes, count): how many were read, 0 at the end. */
#include <sys/types.h>
#include "kernel.h"

_ssize_t _read(int fd, void *bytes, size_t count)
{
    return __flat_answer(kernel3(63, fd, (long)bytes, (long)count));
}
