/* Accesses that stray: a pointer that runs off a block of malloc ("block"), one that is 0 (no argument), and a local array
   that is larger than the stack, the data and the code together ("array"), so that it begins below the program. */
#include <stdio.h>
#include <stdlib.h>
#include <string.h>

static void array(void)
{
    volatile char large[1 << 20];
    large[0] = 1;
    if (large[0] != 1)
        abort();
}

int main(int argc, char **argv)
{
    const char *kind = argc > 1 ? argv[1] : "";
    volatile char *at = strcmp(kind, "block") ? 0 : malloc(100);
    puts("begins"), fflush(stdout);
    if (!strcmp(kind, "array"))
        array();
    for (long i = 0;; i += 65536)
        at[i] = 1;
}
