/* 25 fcntl(fd, command, argument): commands 0 to 4 have one number; flags and locks are turned. The machine of flatc has no such
   call; where the kernel answers ENOSYS, 23 dup, 24 dup3, 63 read and 64 write do what they can: all commands but F_SETFL and
   those of locks. */
#include <errno.h>
#include <fcntl.h>
#include <stdarg.h>
#include "kernel.h"

enum { DESCRIPTORS = 32, LINUX_F_DUPFD_CLOEXEC = 1030, LINUX_F_GETLK64 = 12 };

unsigned __flat_closing;

long __flat_opened(long fd, int closes)
{
    if (fd >= 0 && fd < DESCRIPTORS) {
        if (closes)
            __flat_closing |= 1u << fd;
        else
            __flat_closing &= ~(1u << fd);
    }
    return __flat_answer(fd);
}

/* The lowest free descriptor from `least` on: those below it are taken and given back. */
static long duplicated(int fd, long least)
{
    unsigned below = 0;
    if (least < 0 || least >= DESCRIPTORS)
        return -LINUX_EINVAL;
    long new = kernel3(23, fd, 0, 0);
    while (new >= 0 && new < least) {
        below |= 1u << new;
        new = kernel3(23, fd, 0, 0);
    }
    for (int i = 0; i < DESCRIPTORS; i++)
        if (below >> i & 1)
            kernel3(57, i, 0, 0);
    return new;
}

/* A descriptor gets or loses the mark by becoming itself once more. That takes a free descriptor for a moment. */
static long marked(int fd, int closes)
{
    if (fd < 0 || fd >= DESCRIPTORS)
        return -LINUX_EBADF;
    long other = kernel3(23, fd, 0, 0);
    if (other < 0)
        return other;
    long reply = kernel3(24, other, fd, closes ? LINUX_O_CLOEXEC : 0);
    kernel3(57, other, 0, 0);
    return reply < 0 ? reply : 0;
}

/* What may be done: a read or a write of no bytes is EBADF where it may not. Whether writes go to the end isn't known. */
static long opened_for(int fd)
{
    char byte;
    int reads = kernel3(63, fd, (long)&byte, 0) != -LINUX_EBADF;
    int writes = kernel3(64, fd, (long)&byte, 0) != -LINUX_EBADF;
    if (!reads && !writes)
        return -LINUX_EBADF;
    return !writes ? O_RDONLY : !reads ? O_WRONLY : O_RDWR;
}

static int without_call(int fd, int command, long argument)
{
    long reply;
    switch (command) {
    case F_DUPFD:
        return __flat_opened(duplicated(fd, argument), 0);
    case F_DUPFD_CLOEXEC:
        reply = duplicated(fd, argument);
        return __flat_opened(reply < 0 ? reply : kernel3(24, fd, reply, LINUX_O_CLOEXEC), 1);
    case F_GETFD:
        reply = opened_for(fd);
        return reply < 0 ? __flat_answer(reply) : (int)(__flat_closing >> fd & 1);
    case F_SETFD:
        reply = marked(fd, argument & FD_CLOEXEC);
        if (reply == 0)
            __flat_opened(fd, argument & FD_CLOEXEC);
        return __flat_answer(reply);
    case F_GETFL:
        return __flat_answer(opened_for(fd));
    default:
        return __flat_answer(-LINUX_ENOSYS);
    }
}

/* The kernel's lock: its types begin at 0. */
static int locked(int fd, int command, struct flock *lock)
{
    struct {
        short type, whence;
        long long start, length;
        int pid;
    } given = {lock->l_type - F_RDLCK, lock->l_whence, lock->l_start, lock->l_len, 0};
    long reply = kernel3(25, fd, command - F_GETLK + LINUX_F_GETLK64, (long)&given);
    if (reply == 0 && command == F_GETLK) {
        lock->l_type = given.type + F_RDLCK;
        if (lock->l_type != F_UNLCK) {
            lock->l_whence = given.whence;
            lock->l_start = given.start;
            lock->l_len = given.length;
            lock->l_pid = given.pid;
        }
    }
    return __flat_answer(reply);
}

int fcntl(int fd, int command, ...)
{
    va_list rest;
    va_start(rest, command);
    long argument = va_arg(rest, long);
    va_end(rest);
    if (command >= F_GETLK && command <= F_SETLKW)
        return locked(fd, command, (struct flock *)argument);
    if ((command < F_DUPFD || command > F_SETFL) && command != F_DUPFD_CLOEXEC) {
        errno = EINVAL;
        return -1;
    }
    int number = command == F_DUPFD_CLOEXEC ? LINUX_F_DUPFD_CLOEXEC : command;
    long given = command == F_SETFL ? __flat_flags(argument) : argument;
    long reply = kernel3(25, fd, number, given);
    if (reply == -LINUX_ENOSYS)
        return without_call(fd, command, argument);
    if (command != F_GETFL || reply < 0)
        return __flat_answer(reply);
    return (reply & 3) | (reply & 0x400 ? O_APPEND : 0) | (reply & 0x800 ? O_NONBLOCK : 0);
}

/* By this name newlib's stdio asks. */
int _fcntl(int fd, int command, long argument)
{
    return fcntl(fd, command, argument);
}
