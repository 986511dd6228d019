/* 215 munmap(at, length). */
#include <sys/mman.h>
#include "kernel.h"

int munmap(void *at, size_t length)
{
    return __flat_answer(kernel3(215, (long)at, (long)length, 0));
}
