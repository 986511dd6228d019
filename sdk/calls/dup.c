/* 23 dup(fd): the lowest free descriptor for the same open file. */
#include "kernel.h"

int dup(int fd)
{
    return __flat_opened(kernel3(23, fd, 0, 0), 0);
}
