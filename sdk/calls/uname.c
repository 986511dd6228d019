/* 160 uname(result), 161 sethostname(name, size). The machine of flatc has none of them; where the kernel answers ENOSYS to the
   first, the texts are those of the machine. */
#include <errno.h>
#include <string.h>
#include <sys/utsname.h>
#include <unistd.h>
#include "kernel.h"

int uname(struct utsname *result)
{
    static const struct utsname machine = {"Linux", "flatc", "6.1.0", "#1", "riscv32", "(none)"};
    long reply = kernel3(160, (long)result, 0, 0);
    if (reply == -LINUX_ENOSYS) {
        *result = machine;
        reply = 0;
    }
    return __flat_answer(reply);
}

int gethostname(char *name, size_t size)
{
    struct utsname told;
    if (uname(&told) == -1)
        return -1;
    if (strlen(told.nodename) >= size) {
        errno = ENAMETOOLONG;
        return -1;
    }
    strcpy(name, told.nodename);
    return 0;
}

int sethostname(const char *name, size_t size)
{
    return __flat_answer(kernel3(161, (long)name, (long)size, 0));
}
