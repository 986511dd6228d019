/* 174 getuid(), 175 geteuid(), 176 getgid(), 177 getegid(), 158 getgroups(count, groups), 159 setgroups(count, groups), 146
   setuid(user), 144 setgid(group), 147 setresuid and 149 setresgid(real, effective, saved). The machine of flatc has none of them.
   It has one user, who is 0 in what waitid tells of a child; so where the kernel answers ENOSYS, user and group are 0. They can't
   be set. */
#include <errno.h>
#include <grp.h>
#include <unistd.h>
#include "kernel.h"

static long one(long call)
{
    long reply = kernel3(call, 0, 0, 0);
    return reply == -LINUX_ENOSYS ? 0 : reply;
}

uid_t getuid(void)
{
    return one(174);
}

uid_t geteuid(void)
{
    return one(175);
}

gid_t getgid(void)
{
    return one(176);
}

gid_t getegid(void)
{
    return one(177);
}

int issetugid(void)
{
    return getuid() != geteuid() || getgid() != getegid();
}

/* No file tells who is at work. */
char *getlogin(void)
{
    errno = ENOSYS;
    return 0;
}

int getgroups(int count, gid_t *groups)
{
    return __flat_answer(kernel3(158, count, (long)groups, 0));
}

int setgroups(int count, const gid_t *groups)
{
    return __flat_answer(kernel3(159, count, (long)groups, 0));
}

int setuid(uid_t user)
{
    return __flat_answer(kernel3(146, user, 0, 0));
}

int setgid(gid_t group)
{
    return __flat_answer(kernel3(144, group, 0, 0));
}

int seteuid(uid_t user)
{
    return __flat_answer(kernel3(147, -1, user, -1));
}

int setegid(gid_t group)
{
    return __flat_answer(kernel3(149, -1, group, -1));
}
