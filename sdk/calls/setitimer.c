/* 103 setitimer(which, time, before), 102 getitimer(which, time): times of 32 bits here; and alarm by the first. The machine of
   flatc has no such call: ENOSYS, and of alarm nothing is heard. */
#include <sys/time.h>
#include <unistd.h>
#include "kernel.h"

struct times {
    long interval, interval_microseconds, value, value_microseconds;
};

static void tell(struct itimerval *to, const struct times *times)
{
    to->it_interval = (struct timeval){times->interval, times->interval_microseconds};
    to->it_value = (struct timeval){times->value, times->value_microseconds};
}

int setitimer(int which, const struct itimerval *time, struct itimerval *before)
{
    struct times given = {time->it_interval.tv_sec, time->it_interval.tv_usec, time->it_value.tv_sec, time->it_value.tv_usec}, was;
    if (__flat_answer(kernel3(103, which, (long)&given, (long)&was)) < 0)
        return -1;
    if (before)
        tell(before, &was);
    return 0;
}

int getitimer(int which, struct itimerval *result)
{
    struct times now;
    if (__flat_answer(kernel3(102, which, (long)&now, 0)) < 0)
        return -1;
    tell(result, &now);
    return 0;
}

unsigned alarm(unsigned seconds)
{
    struct itimerval time = {.it_value.tv_sec = seconds}, before = {0};
    if (setitimer(ITIMER_REAL, &time, &before) == -1)
        return 0;
    return before.it_value.tv_sec + (before.it_value.tv_usec > 0);
}
