/* 178 gettid(). */
#include <unistd.h>
#include "kernel.h"

pid_t gettid(void)
{
    return kernel3(178, 0, 0, 0);
}
