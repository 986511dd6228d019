/* errno: Linux's numbers up to 34 are newlib's too; the others have another number there, or none. A number that newlib has
   no name for stays apart from all of newlib's: it is 2000 (__ELASTERROR) and Linux's number. */
#include <errno.h>
#include "kernel.h"

static const struct { short linux, newlib; } errors[] = {
    {35, EDEADLK}, {36, ENAMETOOLONG}, {37, ENOLCK}, {38, ENOSYS}, {39, ENOTEMPTY}, {40, ELOOP}, {42, ENOMSG},
    {43, EIDRM}, {61, ENODATA}, {62, ETIME}, {71, EPROTO}, {74, EBADMSG}, {75, EOVERFLOW}, {84, EILSEQ},
    {88, ENOTSOCK}, {89, EDESTADDRREQ}, {90, EMSGSIZE}, {92, ENOPROTOOPT}, {95, EOPNOTSUPP}, {98, EADDRINUSE},
    {104, ECONNRESET}, {105, ENOBUFS}, {107, ENOTCONN}, {110, ETIMEDOUT}, {111, ECONNREFUSED}, {114, EALREADY},
    {115, EINPROGRESS}, {116, ESTALE}, {122, EDQUOT}, {125, ECANCELED},
};

int __flat_error(long reply)
{
    if ((unsigned long)reply < (unsigned long)-4095)
        return 0;
    int number = (int)-reply;
    if (number <= 34)
        return number;
    unsigned i = 0;
    while (i < sizeof errors / sizeof *errors && errors[i].linux != number)
        i++;
    return i < sizeof errors / sizeof *errors ? errors[i].newlib : __ELASTERROR + number;
}

long __flat_answer(long reply)
{
    int error = __flat_error(reply);
    if (!error)
        return reply;
    errno = error;
    return -1;
}
