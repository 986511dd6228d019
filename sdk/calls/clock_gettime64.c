/* 403 clock_gettime64(clock, result), 404 clock_settime64(clock, time), 406 clock_getres_time64(clock, result): a timespec is
   the kernel's. The machine of flatc has no clock: ENOSYS. */
#include <sys/time.h>
#include <time.h>
#include "kernel.h"

int clock_gettime(clockid_t clock, struct timespec *result)
{
    return __flat_answer(kernel3(403, clock, (long)result, 0));
}

int clock_settime(clockid_t clock, const struct timespec *time)
{
    return __flat_answer(kernel3(404, clock, (long)time, 0));
}

int clock_getres(clockid_t clock, struct timespec *result)
{
    return __flat_answer(kernel3(406, clock, (long)result, 0));
}

int _gettimeofday(struct timeval *result, void *zone)
{
    struct timespec time;
    (void)zone;
    if (clock_gettime(CLOCK_REALTIME, &time) == -1)
        return -1;
    result->tv_sec = time.tv_sec;
    result->tv_usec = time.tv_nsec / 1000;
    return 0;
}

int settimeofday(const struct timeval *time, const struct timezone *zone)
{
    struct timespec given;
    (void)zone; /* the kernel's own zone is of no account */
    if (!time)
        return 0;
    given = (struct timespec){time->tv_sec, time->tv_usec * 1000};
    return clock_settime(CLOCK_REALTIME, &given);
}
