/* 173 getppid(). */
#include <unistd.h>
#include "kernel.h"

pid_t getppid(void)
{
    return kernel3(173, 0, 0, 0);
}
