/* 54 fchownat(folder, path, user, group, flags), 55 fchown(fd, user, group). The machine of flatc has no users: ENOSYS. */
#include <fcntl.h>
#include <unistd.h>
#include "kernel.h"

enum { NO_FOLLOW = 0x100 };

int chown(const char *path, uid_t user, gid_t group)
{
    return __flat_answer(kernel6(54, LINUX_AT_FDCWD, (long)path, user, group, 0, 0));
}

int lchown(const char *path, uid_t user, gid_t group)
{
    return __flat_answer(kernel6(54, LINUX_AT_FDCWD, (long)path, user, group, NO_FOLLOW, 0));
}

int fchown(int fd, uid_t user, gid_t group)
{
    return __flat_answer(kernel3(55, fd, user, group));
}

int fchownat(int folder, const char *path, uid_t user, gid_t group, int flags)
{
    long given = flags & AT_SYMLINK_NOFOLLOW ? NO_FOLLOW : 0;
    return __flat_answer(kernel6(54, __flat_folder(folder), (long)path, user, group, given, 0));
}
