/* 129 kill(pid, signal): a pid of 0 or below is a group. The machine of flatc has no such call: ENOSYS. */
#include <signal.h>
#include "kernel.h"

int _kill(int pid, int signal)
{
    return __flat_answer(kernel3(129, pid, signal, 0));
}

int killpg(pid_t group, int signal)
{
    return _kill(-group, signal);
}
