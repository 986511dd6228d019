/* There is no fork without an MMU: use vfork. */
#include <errno.h>
#include <unistd.h>

pid_t _fork(void)
{
    errno = ENOSYS;
    return -1;
}
