/* 142 reboot(magic, magic, how, 0). The machine of flatc has no such call: ENOSYS. */
#include <sys/reboot.h>
#include "kernel.h"

int reboot(int how)
{
    return __flat_answer(kernel6(142, (long)0xfee1dead, 672274793, how, 0, 0, 0));
}
