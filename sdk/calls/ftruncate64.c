/* 46 ftruncate64(fd, low, high). The machine of flatc has no such call: ENOSYS. */
#include <sys/types.h>
#include "kernel.h"

int ftruncate(int fd, off_t length)
{
    return __flat_answer(kernel3(46, fd, (long)length, length < 0 ? -1 : 0));
}
