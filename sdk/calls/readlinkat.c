/* 78 readlinkat(folder, path, bytes, count), 36 symlinkat(target, folder, path). The machine of flatc has no symbolic links:
   nothing makes one (ENOSYS), and where the kernel answers ENOSYS, what is there is none (EINVAL). */
#include <fcntl.h>
#include <unistd.h>
#include "kernel.h"

ssize_t readlinkat(int folder, const char *path, char *bytes, size_t count)
{
    long reply = kernel6(78, __flat_folder(folder), (long)path, (long)bytes, (long)count, 0, 0);
    if (reply == -LINUX_ENOSYS) {
        reply = kernel3(56, __flat_folder(folder), (long)path, 0);
        if (reply >= 0) {
            kernel3(57, reply, 0, 0);
            reply = -LINUX_EINVAL;
        }
    }
    return __flat_answer(reply);
}

ssize_t readlink(const char *path, char *bytes, size_t count)
{
    return readlinkat(AT_FDCWD, path, bytes, count);
}

int symlinkat(const char *target, int folder, const char *path)
{
    return __flat_answer(kernel3(36, (long)target, __flat_folder(folder), (long)path));
}

int symlink(const char *target, const char *path)
{
    return symlinkat(target, AT_FDCWD, path);
}
