/* 65 readv(fd, pieces, count): read into the pieces in order. */
#include <sys/uio.h>
#include "kernel.h"

ssize_t readv(int fd, const struct iovec *pieces, int count)
{
    return __flat_answer(kernel3(65, fd, (long)pieces, count));
}
