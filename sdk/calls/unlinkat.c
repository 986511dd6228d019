/* 35 unlinkat(folder, path, flags): 0x200, AT_REMOVEDIR, takes an empty folder away, and 0 a file. */
#include <fcntl.h>
#include <unistd.h>
#include "kernel.h"

int unlinkat(int folder, const char *path, int flags)
{
    long given = flags & AT_REMOVEDIR ? 0x200 : 0;
    return __flat_answer(kernel3(35, __flat_folder(folder), (long)path, given));
}

int _unlink(const char *path)
{
    return unlinkat(AT_FDCWD, path, 0);
}

int rmdir(const char *path)
{
    return unlinkat(AT_FDCWD, path, AT_REMOVEDIR);
}
