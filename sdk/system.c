/* system: a vfork, and /bin/sh -c COMMAND in the child. The shell is a program of the manifest; without one system(0) is 0, and
   a command has status 127. */
#include <stdlib.h>
#include <sys/wait.h>
#include <unistd.h>

int system(const char *command)
{
    if (!command)
        return access("/bin/sh", X_OK) == 0;
    int status;
    pid_t child = vfork();
    if (child == 0) {
        execl("/bin/sh", "sh", "-c", command, (char *)0);
        _exit(127);
    }
    return child == -1 || waitpid(child, &status, 0) == -1 ? -1 : status;
}
