/* sbrk, for programs that call it: one anonymous mapping, made at the first use, that doesn't grow. It has as many bytes as the
   symbol __heap_size says, or 131,072 where the link doesn't set it. malloc.c has nothing to do with it. */
#include <errno.h>
#include <sys/mman.h>
#include <unistd.h>

/* A word, so that the symbol, which is a number, is no distance from the code. */
extern char __heap_size[];
static char *const volatile heap_size = __heap_size;

void *_sbrk(ptrdiff_t more)
{
    static char *heap;
    static unsigned long used;
    unsigned long size = heap_size ? (unsigned long)heap_size : 0x20000;
    if (!heap) {
        void *at = mmap(0, size, PROT_READ | PROT_WRITE, MAP_PRIVATE | MAP_ANONYMOUS, -1, 0);
        if (at == MAP_FAILED) {
            errno = ENOMEM;
            return (void *)-1;
        }
        heap = at;
    }
    if (more < 0 ? 0 - (unsigned long)more > used : (unsigned long)more > size - used) {
        errno = ENOMEM;
        return (void *)-1;
    }
    char *at = heap + used;
    used += (unsigned long)more;
    return at;
}
