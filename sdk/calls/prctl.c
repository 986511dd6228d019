/* 167 prctl(what, four numbers). The machine of flatc has no such call: ENOSYS. */
#include <stdarg.h>
#include <sys/prctl.h>
#include "kernel.h"

int prctl(int what, ...)
{
    va_list rest;
    va_start(rest, what);
    long a = va_arg(rest, long), b = va_arg(rest, long), c = va_arg(rest, long), d = va_arg(rest, long);
    va_end(rest);
    return __flat_answer(kernel6(167, what, a, b, c, d, 0));
}
