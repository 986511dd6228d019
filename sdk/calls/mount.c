/* 40 mount(source, folder, type, flags, data), 39 umount2(folder, flags). The machine of flatc has one filesystem: ENOSYS. */
#include <sys/mount.h>
#include "kernel.h"

int mount(const char *source, const char *folder, const char *type, unsigned long flags, const void *data)
{
    return __flat_answer(kernel6(40, (long)source, (long)folder, (long)type, (long)flags, (long)data, 0));
}

int umount2(const char *folder, int flags)
{
    return __flat_answer(kernel3(39, (long)folder, flags, 0));
}

int umount(const char *folder)
{
    return umount2(folder, 0);
}
