/* 94 exit_group(code): the process ends, without more ado. */
#include <unistd.h>
#include "kernel.h"

void _exit(int code)
{
    for (;;)
        kernel3(94, code, 0, 0);
}
