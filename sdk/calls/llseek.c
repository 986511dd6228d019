/* 62 llseek(fd, high, low, result, whence): the position of 64 bits goes to result. Newlib's off_t has 32 bits, so a position
   above 2^31 - 1 is EOVERFLOW, though the file stands there. */
#include <errno.h>
#include <sys/types.h>
#include "kernel.h"

_off_t _lseek(int fd, _off_t offset, int whence)
{
    long long position = 0;
    long long from = offset;
    long reply = kernel6(62, fd, (long)(from >> 32), (long)from, (long)&position, whence, 0);
    if (__flat_answer(reply) < 0)
        return -1;
    if (position > 0x7fffffff) {
        errno = EOVERFLOW;
        return -1;
    }
    return (_off_t)position;
}
