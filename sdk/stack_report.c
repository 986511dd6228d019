/* At exit one line on standard error: how deep the stack came. -Wl,-u,flat_stack_report takes this file into a link. */
#include <flat.h>
#include <stdio.h>
#include <stdlib.h>
#include <string.h>
#include <unistd.h>

void flat_stack_report(void)
{
    char line[64];
    fflush(stdout); /* what was printed stands before it */
    unsigned long used = flat_stack_used();
    if (used)
        snprintf(line, sizeof line, "stack: %lu bytes used, %lu left\n", used, flat_stack_left());
    else
        strcpy(line, "stack: not behind the program\n");
    write(2, line, strlen(line));
}

__attribute__((constructor(101))) static void at_start(void)
{
    atexit(flat_stack_report);
}
