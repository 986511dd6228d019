/* 29 ioctl(fd, request, argument). A descriptor is a terminal where TCGETS (0x5401) succeeds. */
#include <stdarg.h>
#include <sys/ioctl.h>
#include "kernel.h"

int ioctl(int fd, unsigned long request, ...)
{
    va_list rest;
    va_start(rest, request);
    long argument = va_arg(rest, long);
    va_end(rest);
    return __flat_answer(kernel3(29, fd, (long)request, argument));
}

int _isatty(int fd)
{
    long termios[16]; /* the kernel's has 36 bytes */
    return __flat_answer(kernel3(29, fd, 0x5401, (long)termios)) == 0;
}
