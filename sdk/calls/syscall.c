/* Any call, by its number. */
#include <stdarg.h>
#include <unistd.h>
#include "kernel.h"

long syscall(long number, ...)
{
    va_list rest;
    va_start(rest, number);
    long a = va_arg(rest, long), b = va_arg(rest, long), c = va_arg(rest, long), d = va_arg(rest, long), e = va_arg(rest, long),
         f = va_arg(rest, long);
    va_end(rest);
    return __flat_answer(kernel6(number, a, b, c, d, e, f));
}
