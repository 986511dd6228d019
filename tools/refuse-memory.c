/* Loaded by tools/refuse-memory before the C library: counts the allocations that a program asks for, from 1, and refuses those
   from REFUSE_FROM to REFUSE_TO. At the end their count goes into the file REFUSE_COUNT. A realloc counts also where it asks for less. */
#include <errno.h>
#include <fcntl.h>
#include <stdio.h>
#include <stdlib.h>

void *__libc_malloc(size_t), *__libc_calloc(size_t, size_t), *__libc_realloc(void *, size_t), *__libc_memalign(size_t, size_t);

static long count;

static int refused(void)
{
    count++;
    if (count < atol(getenv("REFUSE_FROM")) || count > atol(getenv("REFUSE_TO")))
        return 0;
    errno = ENOMEM;
    return 1;
}

void *malloc(size_t size) { return refused() ? NULL : __libc_malloc(size); }
void *calloc(size_t items, size_t size) { return refused() ? NULL : __libc_calloc(items, size); }
void *realloc(void *old, size_t size) { return refused() ? NULL : __libc_realloc(old, size); }
void *aligned_alloc(size_t align, size_t size) { return refused() ? NULL : __libc_memalign(align, size); }

int posix_memalign(void **made, size_t align, size_t size)
{
    void *room = refused() ? NULL : __libc_memalign(align, size);
    if (room)
        *made = room;
    return room ? 0 : ENOMEM;
}

__attribute__((destructor)) static void tell(void)
{
    dprintf(open(getenv("REFUSE_COUNT"), O_WRONLY), "%ld", count);
}
