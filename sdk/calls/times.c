/* 153 times(result). The machine of flatc has no clock: ENOSYS, and clock() is -1. */
#include <sys/times.h>
#include "kernel.h"

clock_t _times(struct tms *result)
{
    return __flat_answer(kernel3(153, (long)result, 0, 0));
}
