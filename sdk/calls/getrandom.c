/* 278 getrandom(bytes, count, flags). The machine of flatc has no such call: ENOSYS. */
#include <unistd.h>
#include "kernel.h"

int getentropy(void *bytes, size_t count)
{
    long got = __flat_answer(kernel3(278, (long)bytes, (long)count, 0));
    return got == (long)count ? 0 : -1;
}
