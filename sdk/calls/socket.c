/* 198 socket, 200 bind, 201 listen, 202 accept, 203 connect, 204 getsockname, 205 getpeername, 206 sendto, 207 recvfrom, 208
   setsockopt, 209 getsockopt, 210 shutdown, 211 sendmsg, 212 recvmsg. The machine of flatc has no sockets: ENOSYS. */
#include <sys/socket.h>
#include "kernel.h"

int socket(int domain, int type, int protocol)
{
    return __flat_opened(kernel3(198, domain, type, protocol), type & SOCK_CLOEXEC);
}

int bind(int fd, const struct sockaddr *address, socklen_t size)
{
    return __flat_answer(kernel3(200, fd, (long)address, size));
}

int listen(int fd, int count)
{
    return __flat_answer(kernel3(201, fd, count, 0));
}

int accept(int fd, struct sockaddr *address, socklen_t *size)
{
    return __flat_opened(kernel3(202, fd, (long)address, (long)size), 0);
}

int connect(int fd, const struct sockaddr *address, socklen_t size)
{
    return __flat_answer(kernel3(203, fd, (long)address, size));
}

int getsockname(int fd, struct sockaddr *address, socklen_t *size)
{
    return __flat_answer(kernel3(204, fd, (long)address, (long)size));
}

int getpeername(int fd, struct sockaddr *address, socklen_t *size)
{
    return __flat_answer(kernel3(205, fd, (long)address, (long)size));
}

ssize_t sendto(int fd, const void *bytes, size_t count, int flags, const struct sockaddr *address, socklen_t size)
{
    return __flat_answer(kernel6(206, fd, (long)bytes, (long)count, flags, (long)address, size));
}

ssize_t send(int fd, const void *bytes, size_t count, int flags)
{
    return sendto(fd, bytes, count, flags, 0, 0);
}

ssize_t recvfrom(int fd, void *bytes, size_t count, int flags, struct sockaddr *address, socklen_t *size)
{
    return __flat_answer(kernel6(207, fd, (long)bytes, (long)count, flags, (long)address, (long)size));
}

ssize_t recv(int fd, void *bytes, size_t count, int flags)
{
    return recvfrom(fd, bytes, count, flags, 0, 0);
}

int setsockopt(int fd, int level, int option, const void *value, socklen_t size)
{
    return __flat_answer(kernel6(208, fd, level, option, (long)value, size, 0));
}

int getsockopt(int fd, int level, int option, void *value, socklen_t *size)
{
    return __flat_answer(kernel6(209, fd, level, option, (long)value, (long)size, 0));
}

int shutdown(int fd, int how)
{
    return __flat_answer(kernel3(210, fd, how, 0));
}

ssize_t sendmsg(int fd, const struct msghdr *message, int flags)
{
    return __flat_answer(kernel3(211, fd, (long)message, flags));
}

ssize_t recvmsg(int fd, struct msghdr *message, int flags)
{
    return __flat_answer(kernel3(212, fd, (long)message, flags));
}
