/* How deep the stack came. A program that asks, or whose link has -Wl,-u,flat_stack_report, takes this file from the library;
   then the stack's area, from the end of the program to the stack pointer, is filled with a mark before the constructors run. */
#include <flat.h>
#include <unistd.h>

extern char _end[];

enum { MARK = 0x6b636173, LARGEST = 0x200000 };

/* The first word of the stack's area, and the start's environment, which stands above all that is pushed. Both are 0 where the
   stack stands far off the program: a stack has 1 MiB at most, and what lies below it is taken to be less than another. */
static unsigned long *lowest, *top;

__attribute__((noinline, noclone)) static void fill(void)
{
    register unsigned long sp __asm__("sp");
    unsigned long *here = (unsigned long *)sp;
    unsigned long *at = (unsigned long *)(((unsigned long)_end + 3) & ~3ul);
    if ((unsigned long)here - (unsigned long)at > LARGEST)
        return;
    lowest = at;
    top = (unsigned long *)environ;
    while (at < here)
        *(volatile unsigned long *)at++ = MARK;
}

__attribute__((section(".preinit_array"), used)) static void (*const at_start)(void) = fill;

unsigned long flat_stack_left(void)
{
    volatile unsigned long *at = lowest;
    while (at < top && *at == MARK)
        at++;
    return (unsigned long)at - (unsigned long)lowest;
}

unsigned long flat_stack_used(void)
{
    return (unsigned long)top - (unsigned long)lowest - flat_stack_left();
}
