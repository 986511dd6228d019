/* 17 getcwd(bytes, count). The machine of flatc has no such call, and takes each path from the root; where the kernel answers
   ENOSYS, that is the folder. */
#include <errno.h>
#include <stdlib.h>
#include <unistd.h>
#include "kernel.h"

enum { LINUX_ERANGE = 34, LONGEST = 4096 };

static long told(char *bytes, size_t count)
{
    long reply = kernel3(17, (long)bytes, (long)count, 0);
    if (reply != -LINUX_ENOSYS)
        return reply;
    if (count < 2)
        return count ? -LINUX_ERANGE : -LINUX_EINVAL;
    bytes[0] = '/';
    bytes[1] = 0;
    return 2;
}

char *getcwd(char *bytes, size_t count)
{
    size_t size = bytes || count ? count : LONGEST;
    char *path = bytes ? bytes : malloc(size);
    if (!path)
        return 0;
    if (__flat_answer(told(path, size)) >= 0)
        return path;
    if (!bytes)
        free(path);
    return 0;
}
