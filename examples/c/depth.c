/* How deep the stack came, by flat_stack_used, and in a line at exit by -Wl,-u,flat_stack_report. */
#include <flat.h>
#include <stdio.h>
#include <stdlib.h>

static int step(int more)
{
    volatile unsigned char room[512];
    for (unsigned i = 0; i < sizeof room; i++)
        room[i] = 0x55;
    return more ? step(more - 1) + room[more] : room[0];
}

int main(void)
{
    unsigned long before = flat_stack_used(), left = flat_stack_left();
    step(19);
    unsigned long used = flat_stack_used();
    printf("twenty steps of 512 bytes: %s\n", used >= 20 * 512 && used < 20 * 640 ? "seen" : "not seen");
    printf("used and left stay the same together: %s\n", before + left == used + flat_stack_left() ? "yes" : "no");
    printf("a stack of 16384 bytes: %s\n", used + flat_stack_left() >= 16000 ? "yes" : "no");
    return 0;
}
