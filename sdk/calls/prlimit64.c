/* 261 prlimit64(pid, resource, limit, before). The machine of flatc has no such call; where the kernel answers ENOSYS, what is
   known of the machine is that a process has 32 descriptors. */
#include <sys/resource.h>
#include "kernel.h"

enum { DESCRIPTORS = 32 };

int prlimit(pid_t pid, int resource, const struct rlimit *limit, struct rlimit *before)
{
    long reply = kernel6(261, pid, resource, (long)limit, (long)before, 0, 0);
    if (reply == -LINUX_ENOSYS && resource == RLIMIT_NOFILE && !limit && before) {
        *before = (struct rlimit){DESCRIPTORS, DESCRIPTORS};
        return 0;
    }
    return __flat_answer(reply);
}

int getrlimit(int resource, struct rlimit *result)
{
    return prlimit(0, resource, 0, result);
}

int setrlimit(int resource, const struct rlimit *limit)
{
    return prlimit(0, resource, limit, 0);
}

int getdtablesize(void)
{
    struct rlimit limit;
    return getrlimit(RLIMIT_NOFILE, &limit) == 0 ? (int)limit.rlim_cur : DESCRIPTORS;
}
