/* 57 close(fd). */
#include "kernel.h"

int _close(int fd)
{
    return __flat_answer(kernel3(57, fd, 0, 0));
}
