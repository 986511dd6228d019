/* 71 sendfile64(to, from, offset, count). The machine of flatc has no such call: ENOSYS. */
#include <sys/sendfile.h>
#include "kernel.h"

ssize_t sendfile(int to, int from, off_t *offset, size_t count)
{
    long long position = offset ? *offset : 0;
    long reply = kernel6(71, to, from, (long)(offset ? &position : 0), (long)count, 0, 0);
    if (offset && reply >= 0)
        *offset = (off_t)position;
    return __flat_answer(reply);
}
