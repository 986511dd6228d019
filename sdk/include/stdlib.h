/* Newlib's without itoa and utoa, whose names programs take for their own, and the environment as a whole. */
#define itoa __flat_itoa
#define utoa __flat_utoa
#include_next <stdlib.h>
#undef itoa
#undef utoa
#ifndef _FLAT_STDLIB_H
#define _FLAT_STDLIB_H
#ifdef __cplusplus
extern "C" {
#endif
int clearenv(void);
#ifdef __cplusplus
}
#endif
#endif
