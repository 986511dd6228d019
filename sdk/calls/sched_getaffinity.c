/* 123 sched_getaffinity(pid, size, set), 122 sched_setaffinity(pid, size, set). The machine of flatc has none of them; where the
   kernel answers ENOSYS, there is one processor. */
#include <sched.h>
#include <string.h>
#include "kernel.h"

int sched_getaffinity(pid_t pid, size_t size, cpu_set_t *set)
{
    long reply = kernel3(123, pid, (long)size, (long)set);
    if (reply == -LINUX_ENOSYS && size >= sizeof set->__bits[0]) {
        set->__bits[0] = 1;
        reply = sizeof set->__bits[0];
    }
    if (reply < 0)
        return __flat_answer(reply);
    memset((char *)set + reply, 0, size - reply);
    return 0;
}

int sched_setaffinity(pid_t pid, size_t size, const cpu_set_t *set)
{
    return __flat_answer(kernel3(122, pid, (long)size, (long)set));
}
