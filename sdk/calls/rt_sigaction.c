/* 134 rt_sigaction(signal, action, before, 8), 135 rt_sigprocmask(how, set, before, 8), 136 rt_sigpending(set, 8), 133
   rt_sigsuspend(set, 8), 421 rt_sigtimedwait_time64(set, info, time, 8), and raise by 129 kill. The machine of flatc has none of
   them, and no signal comes there. So what they say is kept here, too; where the kernel answers ENOSYS, or EPERM to a signal that
   has a handler, it is done for the program's own raise alone. */
#include <errno.h>
#include <sched.h>
#include <signal.h>
#include "kernel.h"

enum { SET = sizeof(sigset_t) };

struct kernel_action {
    _sig_func_ptr handler;
    unsigned long flags;
    sigset_t mask;
};

static struct sigaction actions[NSIG];
static sigset_t blocked, pending;

static sigset_t only(int n)
{
    return 1ull << (n - 1);
}

static int is_signal(int n)
{
    if (n > 0 && n < NSIG)
        return 1;
    errno = EINVAL;
    return 0;
}

/* What is done with a signal that the kernel didn't take, for the reason of `reply`. */
static int taken(int n, long reply)
{
    struct sigaction action = actions[n];
    sigset_t before = blocked;
    if (action.sa_handler == SIG_IGN)
        return 0;
    if (action.sa_handler == SIG_DFL)
        return n == SIGCHLD || n == SIGURG || n == SIGWINCH || n == SIGCONT ? 0 : __flat_answer(reply);
    if (action.sa_flags & SA_RESETHAND)
        actions[n].sa_handler = SIG_DFL;
    blocked |= action.sa_mask | (action.sa_flags & SA_NODEFER ? 0 : only(n));
    action.sa_handler(n);
    blocked = before;
    return 0;
}

static int take_pending(void)
{
    int count = 0;
    for (int n = 1; n < NSIG; n++)
        if (pending & ~blocked & only(n)) {
            pending &= ~only(n);
            taken(n, -LINUX_ENOSYS);
            count++;
        }
    return count;
}

int raise(int n)
{
    if (!is_signal(n))
        return -1;
    long reply = kernel3(129, kernel3(172, 0, 0, 0), n, 0);
    if (reply != -LINUX_ENOSYS && reply != -LINUX_EPERM)
        return __flat_answer(reply);
    if (!(blocked & only(n))) {
        int done = taken(n, reply);
        take_pending();
        return done;
    }
    pending |= only(n);
    return 0;
}

int sigaction(int n, const struct sigaction *action, struct sigaction *before)
{
    struct kernel_action given, told;
    struct sigaction was;
    if (!is_signal(n))
        return -1;
    was = actions[n];
    if (action)
        given = (struct kernel_action){action->sa_handler, action->sa_flags, action->sa_mask};
    long reply = kernel6(134, n, (long)(action ? &given : 0), (long)&told, SET, 0, 0);
    if (reply == 0) {
        was.sa_handler = told.handler;
        was.sa_flags = told.flags;
        was.sa_mask = told.mask;
    } else if (reply == -LINUX_ENOSYS && action && (n == SIGKILL || n == SIGSTOP)) {
        errno = EINVAL;
        return -1;
    } else if (reply != -LINUX_ENOSYS) {
        return __flat_answer(reply);
    }
    if (action)
        actions[n] = *action;
    if (before)
        *before = was;
    return 0;
}

_sig_func_ptr signal(int n, _sig_func_ptr handler)
{
    struct sigaction action = {.sa_handler = handler, .sa_flags = SA_RESTART}, before;
    return sigaction(n, &action, &before) == -1 ? SIG_ERR : before.sa_handler;
}

int siginterrupt(int n, int interrupts)
{
    struct sigaction action;
    if (sigaction(n, 0, &action) == -1)
        return -1;
    action.sa_flags = interrupts ? action.sa_flags & ~SA_RESTART : action.sa_flags | SA_RESTART;
    return sigaction(n, &action, 0);
}

int sigprocmask(int how, const sigset_t *set, sigset_t *before)
{
    sigset_t now = blocked, told, given = set ? *set : 0;
    long reply = kernel6(135, how, (long)(set ? &given : 0), (long)&told, SET, 0, 0);
    if (reply == 0)
        now = told;
    else if (reply != -LINUX_ENOSYS)
        return __flat_answer(reply);
    if (set) {
        switch (how) {
        case SIG_BLOCK: blocked |= given; break;
        case SIG_UNBLOCK: blocked &= ~given; break;
        case SIG_SETMASK: blocked = given; break;
        default: errno = EINVAL; return -1;
        }
        blocked &= ~(only(SIGKILL) | only(SIGSTOP));
    }
    if (before)
        *before = now;
    take_pending();
    return 0;
}

int sigpending(sigset_t *set)
{
    sigset_t told = 0;
    long reply = kernel3(136, (long)&told, SET, 0);
    if (reply != 0 && reply != -LINUX_ENOSYS)
        return __flat_answer(reply);
    *set = (reply == 0 ? told : 0) | pending;
    return 0;
}

/* Where the kernel has no such call nothing would come while it waits: the others have a turn, and it says that it was woken. */
int sigsuspend(const sigset_t *set)
{
    sigset_t before = blocked, given = *set;
    blocked = given;
    if (!take_pending()) {
        long reply = kernel3(133, (long)&given, SET, 0);
        if (reply == -LINUX_ENOSYS)
            sched_yield();
    }
    blocked = before;
    errno = EINTR;
    return -1;
}

int sigtimedwait(const sigset_t *set, siginfo_t *info, const struct timespec *time)
{
    for (int n = 1; n < NSIG; n++)
        if (pending & *set & only(n)) {
            pending &= ~only(n);
            if (info)
                *info = (siginfo_t){.si_signo = n};
            return n;
        }
    sigset_t given = *set;
    long reply = kernel6(421, (long)&given, (long)info, (long)time, SET, 0, 0);
    if (reply == -LINUX_ENOSYS && time && !time->tv_sec && !time->tv_nsec)
        reply = -LINUX_EAGAIN;
    return __flat_answer(reply);
}

int sigwaitinfo(const sigset_t *set, siginfo_t *info)
{
    return sigtimedwait(set, info, 0);
}

int sigwait(const sigset_t *set, int *number)
{
    int n = sigtimedwait(set, 0, 0);
    if (n == -1)
        return errno;
    *number = n;
    return 0;
}
