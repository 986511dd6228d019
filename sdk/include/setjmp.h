/* Newlib's, and the jumps that keep the mask of signals, too. */
#include_next <setjmp.h>
#ifndef _FLAT_SETJMP_H
#define _FLAT_SETJMP_H
#include <sys/_sigset.h>
#ifdef __cplusplus
extern "C" {
#endif
typedef struct {
    jmp_buf jump;
    int keeps;
    __sigset_t mask;
} sigjmp_buf[1];
jmp_buf *__flat_keep_mask(sigjmp_buf at, int keeps);
void siglongjmp(sigjmp_buf at, int value) __attribute__((noreturn));
#define sigsetjmp(at, keeps) setjmp(*__flat_keep_mask(at, keeps))
#ifdef __cplusplus
}
#endif
#endif
