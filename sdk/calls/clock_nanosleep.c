/* 407 clock_nanosleep_time64(clock, flags, time, rest). The machine of flatc has no clock: ENOSYS. */
#include <time.h>
#include <unistd.h>
#include "kernel.h"

/* As POSIX has it, this one returns the error. */
int clock_nanosleep(clockid_t clock, int flags, const struct timespec *time, struct timespec *rest)
{
    return __flat_error(kernel6(407, clock, flags, (long)time, (long)rest, 0, 0));
}

int nanosleep(const struct timespec *time, struct timespec *rest)
{
    return __flat_answer(kernel6(407, CLOCK_REALTIME, 0, (long)time, (long)rest, 0, 0));
}

unsigned sleep(unsigned seconds)
{
    struct timespec time = {seconds, 0}, rest = {seconds, 0};
    if (nanosleep(&time, &rest) == 0)
        return 0;
    return rest.tv_sec + (rest.tv_nsec > 0);
}

int usleep(useconds_t time)
{
    struct timespec given = {time / 1000000, time % 1000000 * 1000};
    return nanosleep(&given, 0);
}
