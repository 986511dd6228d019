/* 61 getdents64(fd, records, count): whole records, as many as fit; opendir and its kin stand on it. */
#include <dirent.h>
#include <errno.h>
#include <fcntl.h>
#include <stdlib.h>
#include <unistd.h>
#include "kernel.h"

static DIR *stream(int fd)
{
    DIR *dir = malloc(sizeof *dir);
    if (dir) {
        dir->dd_fd = fd;
        dir->dd_at = dir->dd_filled = 0;
    }
    return dir;
}

DIR *fdopendir(int fd)
{
    /* One byte has room for no record: a folder that has one left answers EINVAL, and a file ENOTDIR. */
    char byte;
    if (kernel3(61, fd, (long)&byte, 1) == -LINUX_ENOTDIR) {
        errno = ENOTDIR;
        return 0;
    }
    return stream(fd);
}

DIR *opendir(const char *path)
{
    int fd = open(path, O_RDONLY | O_DIRECTORY | O_CLOEXEC);
    if (fd < 0)
        return 0;
    DIR *dir = stream(fd);
    if (!dir)
        close(fd);
    return dir;
}

struct dirent *readdir(DIR *dir)
{
    if (dir->dd_at >= dir->dd_filled) {
        long got = __flat_answer(kernel3(61, dir->dd_fd, (long)dir->dd_bytes, sizeof dir->dd_bytes));
        if (got <= 0)
            return 0;
        dir->dd_at = 0;
        dir->dd_filled = got;
    }
    struct dirent *entry = (struct dirent *)(dir->dd_bytes + dir->dd_at);
    dir->dd_at += entry->d_reclen;
    return entry;
}

void rewinddir(DIR *dir)
{
    lseek(dir->dd_fd, 0, SEEK_SET);
    dir->dd_at = dir->dd_filled = 0;
}

int dirfd(DIR *dir)
{
    return dir->dd_fd;
}

int closedir(DIR *dir)
{
    int fd = dir->dd_fd;
    free(dir);
    return close(fd);
}
