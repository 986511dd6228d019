/* 66 writev(fd, pieces, count): write the pieces joined. */
#include <sys/uio.h>
#include "kernel.h"

ssize_t writev(int fd, const struct iovec *pieces, int count)
{
    return __flat_answer(kernel3(66, fd, (long)pieces, count));
}
