/* 37 linkat(folder, path, folder, path, flags). The machine of flatc has no such call: ENOSYS. */
#include <fcntl.h>
#include <unistd.h>
#include "kernel.h"

enum { FOLLOW = 0x400 };

int linkat(int from_folder, const char *from, int to_folder, const char *to, int flags)
{
    long given = flags & AT_SYMLINK_FOLLOW ? FOLLOW : 0;
    return __flat_answer(kernel6(37, __flat_folder(from_folder), (long)from, __flat_folder(to_folder), (long)to, given, 0));
}

int _link(const char *from, const char *to)
{
    return linkat(AT_FDCWD, from, AT_FDCWD, to, 0);
}
