/* 43 statfs64(path, size, result), 44 fstatfs64(fd, size, result). The machine of flatc has none of them: ENOSYS. */
#include <string.h>
#include <sys/statvfs.h>
#include <sys/vfs.h>
#include "kernel.h"

int statfs(const char *path, struct statfs *result)
{
    return __flat_answer(kernel3(43, (long)path, sizeof *result, (long)result));
}

int fstatfs(int fd, struct statfs *result)
{
    return __flat_answer(kernel3(44, fd, sizeof *result, (long)result));
}

static int turned(int reply, const struct statfs *told, struct statvfs *result)
{
    if (reply == 0)
        *result = (struct statvfs){
            .f_bsize = told->f_bsize, .f_frsize = told->f_frsize ? told->f_frsize : told->f_bsize, .f_blocks = told->f_blocks,
            .f_bfree = told->f_bfree, .f_bavail = told->f_bavail, .f_files = told->f_files, .f_ffree = told->f_ffree,
            .f_favail = told->f_ffree, .f_fsid = told->f_fsid.__val[0], .f_flag = told->f_flags, .f_namemax = told->f_namelen};
    return reply;
}

int statvfs(const char *path, struct statvfs *result)
{
    struct statfs told;
    return turned(statfs(path, &told), &told, result);
}

int fstatvfs(int fd, struct statvfs *result)
{
    struct statfs told;
    return turned(fstatfs(fd, &told), &told, result);
}
