/* 166 umask(mask). The machine of flatc has no such call and no modes; where the kernel answers ENOSYS, the mask is kept here
   and has no effect. */
#include <sys/stat.h>
#include "kernel.h"

mode_t umask(mode_t mask)
{
    static mode_t kept = 022;
    long reply = kernel3(166, mask & 0777, 0, 0);
    if (reply != -LINUX_ENOSYS)
        return reply;
    mode_t before = kept;
    kept = mask & 0777;
    return before;
}
