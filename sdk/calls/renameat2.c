/* 276 renameat2(folder, path, folder, path, flags). The machine of flatc has no such call: ENOSYS. */
#include <fcntl.h>
#include <stdio.h>
#include "kernel.h"

int renameat(int from_folder, const char *from, int to_folder, const char *to)
{
    return __flat_answer(kernel6(276, __flat_folder(from_folder), (long)from, __flat_folder(to_folder), (long)to, 0, 0));
}

int rename(const char *from, const char *to)
{
    return renameat(AT_FDCWD, from, AT_FDCWD, to);
}
