/* A call by its number, with Linux's numbers on RV32: those that programs make so. */
#ifndef _SYS_SYSCALL_H
#define _SYS_SYSCALL_H
#ifdef __cplusplus
extern "C" {
#endif
#define __NR_ioprio_set 30
#define __NR_ioprio_get 31
#define __NR_pivot_root 41
#define __NR_sched_setaffinity 122
#define __NR_sched_getaffinity 123
#define __NR_gettid 178
#define __NR_getrandom 278
#define __NR_clock_gettime64 403
#define SYS_ioprio_set __NR_ioprio_set
#define SYS_ioprio_get __NR_ioprio_get
#define SYS_pivot_root __NR_pivot_root
#define SYS_sched_setaffinity __NR_sched_setaffinity
#define SYS_sched_getaffinity __NR_sched_getaffinity
#define SYS_gettid __NR_gettid
#define SYS_getrandom __NR_getrandom
#define SYS_clock_gettime64 __NR_clock_gettime64
long syscall(long number, ...);
#ifdef __cplusplus
}
#endif
#endif
