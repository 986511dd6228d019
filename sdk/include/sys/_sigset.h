/* A set of signals: signal N is bit N - 1 of 64, as in the kernel's calls. */
#ifndef _SYS__SIGSET_H_
#define _SYS__SIGSET_H_
typedef unsigned long long __sigset_t;
#endif
