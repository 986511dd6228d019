/* The jumps of <setjmp.h> that keep the mask of signals. */
#include <setjmp.h>
#include <signal.h>

jmp_buf *__flat_keep_mask(sigjmp_buf at, int keeps)
{
    at->keeps = keeps;
    if (keeps)
        sigprocmask(SIG_SETMASK, 0, &at->mask);
    return &at->jump;
}

void siglongjmp(sigjmp_buf at, int value)
{
    if (at->keeps)
        sigprocmask(SIG_SETMASK, &at->mask, 0);
    longjmp(at->jump, value);
}
