/* 64 write(fd, bytes, count): how many were written. */
#include <sys/types.h>
#include "kernel.h"

_ssize_t _write(int fd, const void *bytes, size_t count)
{
    return __flat_answer(kernel3(64, fd, (long)bytes, (long)count));
}
