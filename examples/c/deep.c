/* A stack that is too small. Each step takes 512 bytes of it and a little more; with twenty steps it passes 8192 bytes and
   grows into the table below, which is the program's own, so no access strays. The program doesn't end, since a dump shows
   only the memory of a process that lives where the run stops. */
#include <stdlib.h>
#include <string.h>
#include <unistd.h>

/* A common symbol stands behind all other data, so the stack's area begins at its end. */
__attribute__((common)) unsigned char table[16384];

static void say(const char *text)
{
    write(1, text, strlen(text));
}

static int step(int more)
{
    volatile unsigned char room[512];
    for (unsigned i = 0; i < sizeof room; i++)
        room[i] = 0x55;
    return more ? step(more - 1) + room[more] : room[0];
}

int main(int argc, char **argv)
{
    int used = 0;
    step(argc > 1 ? atoi(argv[1]) : 0);
    for (unsigned i = 0; i < sizeof table; i++)
        used |= table[i];
    say(used ? "the table was overwritten\n" : "the table is whole\n");
    for (;;)
        ;
}
