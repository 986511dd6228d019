/* 165 getrusage(whose, result): times of 32 bits here. The machine of flatc has no clock: ENOSYS. */
#include <string.h>
#include <sys/resource.h>
#include "kernel.h"

void __flat_usage(struct rusage *result, const struct kernel_usage *told)
{
    result->ru_utime = (struct timeval){told->times[0], told->times[1]};
    result->ru_stime = (struct timeval){told->times[2], told->times[3]};
    memcpy(&result->ru_maxrss, told->counts, sizeof told->counts);
}

int getrusage(int whose, struct rusage *result)
{
    struct kernel_usage told;
    if (__flat_answer(kernel3(165, whose, (long)&told, 0)) < 0)
        return -1;
    __flat_usage(result, &told);
    return 0;
}
