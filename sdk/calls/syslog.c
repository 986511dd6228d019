/* 116 syslog(action, bytes, count): the kernel's own log. The machine of flatc has no such call: ENOSYS. */
#include <sys/klog.h>
#include "kernel.h"

int klogctl(int action, char *bytes, int count)
{
    return __flat_answer(kernel3(116, action, (long)bytes, count));
}
