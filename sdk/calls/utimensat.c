/* 412 utimensat_time64(folder, path, times, flags). The machine of flatc has no clock: ENOSYS. */
#include <fcntl.h>
#include <sys/stat.h>
#include <sys/time.h>
#include <utime.h>
#include "kernel.h"

struct time {
    long long seconds, nanoseconds;
};

static int set(int folder, const char *path, const struct time *times, int flags)
{
    return __flat_answer(kernel6(412, folder, (long)path, (long)times, flags, 0, 0));
}

static int set_by(int folder, const char *path, const struct timespec *times, int flags)
{
    struct time given[2];
    if (!times)
        return set(folder, path, 0, flags);
    for (int i = 0; i < 2; i++)
        given[i] = (struct time){times[i].tv_sec, times[i].tv_nsec};
    return set(folder, path, given, flags);
}

int utimensat(int folder, const char *path, const struct timespec *times, int flags)
{
    return set_by(__flat_folder(folder), path, times, flags & AT_SYMLINK_NOFOLLOW ? 0x100 : 0);
}

int futimens(int fd, const struct timespec *times)
{
    return set_by(fd, 0, times, 0);
}

int utime(const char *path, const struct utimbuf *times)
{
    if (!times)
        return set(LINUX_AT_FDCWD, path, 0, 0);
    struct time given[2] = {{times->actime, 0}, {times->modtime, 0}};
    return set(LINUX_AT_FDCWD, path, given, 0);
}

int utimes(const char *path, const struct timeval *times)
{
    if (!times)
        return set(LINUX_AT_FDCWD, path, 0, 0);
    struct time given[2] = {{times[0].tv_sec, times[0].tv_usec * 1000LL}, {times[1].tv_sec, times[1].tv_usec * 1000LL}};
    return set(LINUX_AT_FDCWD, path, given, 0);
}
