/* 179 sysinfo(result). The machine of flatc has no such call: ENOSYS. */
#include <sys/sysinfo.h>
#include "kernel.h"

int sysinfo(struct sysinfo *result)
{
    return __flat_answer(kernel3(179, (long)result, 0, 0));
}
