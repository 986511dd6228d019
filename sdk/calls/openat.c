/* 56 openat(folder, path, flags, mode): the lowest free descriptor. */
#include <fcntl.h>
#include <stdarg.h>
#include "kernel.h"

static const struct { int newlib, linux; } bits[] = {
    {O_APPEND, 0x400}, {O_CREAT, 0x40}, {O_TRUNC, 0x200}, {O_EXCL, 0x80}, {O_SYNC, 0x101000}, {O_NONBLOCK, 0x800},
    {O_NOCTTY, 0x100}, {O_CLOEXEC, LINUX_O_CLOEXEC}, {O_NOFOLLOW, 0x20000}, {O_DIRECTORY, 0x10000},
};

long __flat_flags(int flags)
{
    long given = flags & O_ACCMODE;
    for (unsigned i = 0; i < sizeof bits / sizeof *bits; i++)
        if (flags & bits[i].newlib)
            given |= bits[i].linux;
    return given;
}

long __flat_folder(int fd)
{
    return fd == AT_FDCWD ? LINUX_AT_FDCWD : fd;
}

static int opened(int folder, const char *path, int flags, int mode)
{
    long fd = kernel6(56, __flat_folder(folder), (long)path, __flat_flags(flags), mode, 0, 0);
    return __flat_opened(fd, flags & O_CLOEXEC);
}

int _open(const char *path, int flags, int mode)
{
    return opened(AT_FDCWD, path, flags, mode);
}

int openat(int folder, const char *path, int flags, ...)
{
    va_list rest;
    va_start(rest, flags);
    int mode = flags & O_CREAT ? va_arg(rest, int) : 0;
    va_end(rest);
    return opened(folder, path, flags, mode);
}

int creat(const char *path, mode_t mode)
{
    return opened(AT_FDCWD, path, O_WRONLY | O_CREAT | O_TRUNC, mode);
}
