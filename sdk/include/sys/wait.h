/* Newlib's, with the rest of Linux's: what waits for children that go on, and what tells of their times. */
#include_next <sys/wait.h>
#ifndef _FLAT_SYS_WAIT_H
#define _FLAT_SYS_WAIT_H
#include <sys/resource.h>
#include <sys/signal.h>
#define WSTOPPED WUNTRACED
#define WEXITED 4
#define WCONTINUED 8
#define WNOWAIT 0x1000000
#define WCOREDUMP(status) ((status) & 0x80)
#define WIFCONTINUED(status) ((status) == 0xffff)
typedef enum { P_ALL, P_PID, P_PGID } idtype_t;
#ifdef __cplusplus
extern "C" {
#endif
int waitid(idtype_t kind, id_t id, siginfo_t *info, int options);
pid_t wait3(int *status, int options, struct rusage *usage);
pid_t wait4(pid_t pid, int *status, int options, struct rusage *usage);
#ifdef __cplusplus
}
#endif
#endif
