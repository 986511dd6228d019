/* Ends of a process: an illegal instruction, a breakpoint, abort, an exit, and none at all. */
#include <stdio.h>
#include <stdlib.h>

static void at_end(void)
{
    printf("at exit\n");
}

int main(int argc, char **argv)
{
    atexit(at_end);
    switch (argc > 1 ? argv[1][0] : 0) {
    case 'i': __asm__ volatile("unimp"); break;
    case 'b': __asm__ volatile("ebreak"); break;
    case 'a': abort();
    case 'f': for (;;) ;
    }
    printf("returns\n");
    return 7;
}
