/* Newlib's, and Linux's sets of processors. */
#include_next <sched.h>
#ifndef _FLAT_SCHED_H
#define _FLAT_SCHED_H
#include <string.h>
#ifdef __cplusplus
extern "C" {
#endif
#define SCHED_BATCH 3
#define SCHED_IDLE 5
#define CPU_SETSIZE 1024
typedef struct {
    unsigned long __bits[CPU_SETSIZE / 32];
} cpu_set_t;
#define CPU_ZERO(set) memset((set), 0, sizeof(cpu_set_t))
#define CPU_SET(cpu, set) ((set)->__bits[(cpu) / 32] |= 1ul << (cpu) % 32)
#define CPU_CLR(cpu, set) ((set)->__bits[(cpu) / 32] &= ~(1ul << (cpu) % 32))
#define CPU_ISSET(cpu, set) ((set)->__bits[(cpu) / 32] >> (cpu) % 32 & 1)
int sched_yield(void);
int sched_getaffinity(pid_t pid, size_t size, cpu_set_t *set);
int sched_setaffinity(pid_t pid, size_t size, const cpu_set_t *set);
#ifdef __cplusplus
}
#endif
#endif
