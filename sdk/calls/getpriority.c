/* 141 getpriority(which, whose), whose answer is 20 less the priority; 140 setpriority(which, whose, priority); and nice by both.
   The machine of flatc has none of them: ENOSYS. */
#include <errno.h>
#include <sys/resource.h>
#include <unistd.h>
#include "kernel.h"

int getpriority(int which, id_t whose)
{
    long reply = kernel3(141, which, whose, 0);
    return reply < 0 ? __flat_answer(reply) : 20 - reply;
}

int setpriority(int which, id_t whose, int priority)
{
    return __flat_answer(kernel3(140, which, whose, priority));
}

int nice(int more)
{
    errno = 0;
    int now = getpriority(PRIO_PROCESS, 0);
    if ((now == -1 && errno) || setpriority(PRIO_PROCESS, 0, now + more) == -1)
        return -1;
    return getpriority(PRIO_PROCESS, 0);
}
