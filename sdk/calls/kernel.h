/* A call of the kernel by its number, and its answer for C: errno from a negative reply. */
#ifndef FLAT_KERNEL_H
#define FLAT_KERNEL_H

static inline long kernel6(long n, long a, long b, long c, long d, long e, long f)
{
    register long a0 __asm__("a0") = a;
    register long a1 __asm__("a1") = b;
    register long a2 __asm__("a2") = c;
    register long a3 __asm__("a3") = d;
    register long a4 __asm__("a4") = e;
    register long a5 __asm__("a5") = f;
    register long a7 __asm__("a7") = n;
    __asm__ volatile("ecall" : "+r"(a0) : "r"(a1), "r"(a2), "r"(a3), "r"(a4), "r"(a5), "r"(a7) : "memory");
    return a0;
}

static inline long kernel3(long n, long a, long b, long c)
{
    return kernel6(n, a, b, c, 0, 0, 0);
}

/* The reply, or -1 with errno where it lies between -4095 and -1 (answer.c). */
long __flat_answer(long reply);

/* What such a reply is as a number of an error: 0, or newlib's errno. */
int __flat_error(long reply);

/* Newlib's flags of open, and its folder AT_FDCWD, as Linux has them (openat.c). */
long __flat_flags(int flags);
long __flat_folder(int fd);

/* The reply to opening a path to be written, which is closed again (faccessat.c). */
long __flat_writing(int folder, const char *path);

/* Which descriptors close at an execve, a bit each: the machine has no call that tells (fcntl.c). */
extern unsigned __flat_closing;

/* As __flat_answer, of a new descriptor, which closes at an execve or doesn't. */
long __flat_opened(long fd, int closes);

/* The kernel's times and counts of a process, whose times have 32 bits here, as newlib has them (getrusage.c). */
struct kernel_usage {
    long times[4], counts[14];
};
struct rusage;
void __flat_usage(struct rusage *result, const struct kernel_usage *told);

enum { LINUX_AT_FDCWD = -100, LINUX_O_CLOEXEC = 0x80000 };
enum {
    LINUX_EPERM = 1, LINUX_EBADF = 9, LINUX_EAGAIN = 11, LINUX_EACCES = 13, LINUX_ENOTDIR = 20, LINUX_EISDIR = 21,
    LINUX_EINVAL = 22, LINUX_ESPIPE = 29, LINUX_ENOSYS = 38
};
#endif
