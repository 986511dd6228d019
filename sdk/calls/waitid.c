/* 95 waitid(kind, id, info, options, usage): waits for a child; kind 0 is any, 1 the pid, 2 the group. What info says becomes
   the status of wait and waitpid. The machine of flatc has no stopped children and counts no times, and answers EINVAL where they
   are asked for: then it is asked without. */
#include <string.h>
#include <sys/resource.h>
#include <sys/wait.h>
#include "kernel.h"

static long asked(int kind, long id, siginfo_t *info, int options, struct kernel_usage *usage)
{
    const int stopped = WSTOPPED | WCONTINUED;
    long reply = kernel6(95, kind, id, (long)info, options, (long)usage, 0);
    if (reply == -LINUX_EINVAL && usage)
        reply = kernel6(95, kind, id, (long)info, options, 0, 0);
    if (reply == -LINUX_EINVAL && options & stopped && options & WEXITED)
        reply = kernel6(95, kind, id, (long)info, options & ~stopped, 0, 0);
    return reply;
}

int waitid(idtype_t kind, id_t id, siginfo_t *info, int options)
{
    siginfo_t told;
    return __flat_answer(asked(kind, id, info ? info : &told, options, 0));
}

static int status_of(const siginfo_t *info)
{
    switch (info->si_code) {
    case CLD_EXITED: return (info->si_status & 255) << 8;
    case CLD_KILLED: return info->si_status & 127;
    case CLD_DUMPED: return (info->si_status & 127) | 128;
    case CLD_CONTINUED: return 0xffff;
    default: return (info->si_status & 255) << 8 | 127;
    }
}

pid_t wait4(pid_t pid, int *status, int options, struct rusage *usage)
{
    siginfo_t info;
    struct kernel_usage used;
    info.si_pid = 0; /* it stays so where WNOHANG finds no child that has ended */
    memset(&used, 0, sizeof used);
    int kind = pid == -1 ? P_ALL : pid > 0 ? P_PID : P_PGID;
    long id = pid == -1 ? 0 : pid > 0 ? pid : -pid;
    if (__flat_answer(asked(kind, id, &info, options | WEXITED, usage ? &used : 0)) < 0)
        return -1;
    if (status && info.si_pid)
        *status = status_of(&info);
    if (usage)
        __flat_usage(usage, &used);
    return info.si_pid;
}

pid_t wait3(int *status, int options, struct rusage *usage)
{
    return wait4(-1, status, options, usage);
}

pid_t waitpid(pid_t pid, int *status, int options)
{
    return wait4(pid, status, options, 0);
}

pid_t _wait(int *status)
{
    return wait4(-1, status, 0, 0);
}
