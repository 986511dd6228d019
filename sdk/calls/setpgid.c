/* 154 setpgid(pid, group), 155 getpgid(pid), 156 getsid(pid), 157 setsid(). The machine of flatc has no groups and sessions of
   processes: ENOSYS. */
#include <unistd.h>
#include "kernel.h"

int setpgid(pid_t pid, pid_t group)
{
    return __flat_answer(kernel3(154, pid, group, 0));
}

pid_t getpgid(pid_t pid)
{
    return __flat_answer(kernel3(155, pid, 0, 0));
}

pid_t getsid(pid_t pid)
{
    return __flat_answer(kernel3(156, pid, 0, 0));
}

pid_t setsid(void)
{
    return __flat_answer(kernel3(157, 0, 0, 0));
}

int setpgrp(void)
{
    return setpgid(0, 0);
}

pid_t getpgrp(void)
{
    return getpgid(0);
}
