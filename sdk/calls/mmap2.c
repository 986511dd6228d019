/* 222 mmap2(at, length, prot, flags, fd, page): the address of the mapping; page is the offset by 4096. */
#include <errno.h>
#include <sys/mman.h>
#include "kernel.h"

void *mmap(void *at, size_t length, int prot, int flags, int fd, off_t offset)
{
    if (offset & 4095) {
        errno = EINVAL;
        return MAP_FAILED;
    }
    return (void *)__flat_answer(kernel6(222, (long)at, (long)length, prot, flags, fd, (long)((unsigned long)offset >> 12)));
}
