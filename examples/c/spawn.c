/* Programs that start others: vfork, execv, waitpid, pipe, pipe2, dup2 and kill, and what a status says. That a program can't
   be started its parent learns by a pipe whose ends close at an execve. The machine doesn't serve kill: there the one that it
   would end goes on, and ends with its input. */
#define _GNU_SOURCE
#include <errno.h>
#include <fcntl.h>
#include <signal.h>
#include <stdio.h>
#include <string.h>
#include <sys/wait.h>
#include <unistd.h>

/* Starts a program with its descriptors 0 and 1 from in and out; the child closes `other`. */
static pid_t start(char *const argv[], int in, int out, int other)
{
    int told[2], why = 0;
    fflush(stdout);
    if (pipe2(told, O_CLOEXEC) == -1)
        return -1;
    pid_t pid = vfork();
    if (pid == 0) {
        dup2(in, 0);
        dup2(out, 1);
        if (in != 0)
            close(in);
        if (out != 1)
            close(out);
        if (other >= 0)
            close(other);
        execv(argv[0], argv);
        int failed = errno;
        write(told[1], &failed, sizeof failed);
        _exit(127);
    }
    close(told[1]);
    if (read(told[0], &why, sizeof why) == sizeof why)
        printf("%s: %s\n", argv[0], strerror(why));
    close(told[0]);
    return pid;
}

static void wait_for(pid_t pid)
{
    int status = 0;
    pid_t got = waitpid(pid, &status, 0);
    if (got == -1)
        printf("waitpid: %s\n", strerror(errno));
    else if (WIFEXITED(status))
        printf("the right child: %d, exit %d\n", got == pid || pid == -1, WEXITSTATUS(status));
    else if (WIFSIGNALED(status))
        printf("the right child: %d, signal %d\n", got == pid || pid == -1, WTERMSIG(status));
}

int main(void)
{
    setvbuf(stdout, 0, _IOLBF, 0);
    char *lines[] = {"lines", "12", 0}, *match[] = {"match", "1", 0}, *wc[] = {"wc", 0};
    char *nothing[] = {"nowhere/at/all", 0}, *illegal[] = {"ends", "i", 0};
    int fds[2], status;
    printf("pipe: %d\n", pipe(fds));
    pid_t first = start(lines, 0, fds[1], fds[0]);
    close(fds[1]);
    pid_t second = start(match, fds[0], 1, -1);
    close(fds[0]);
    wait_for(second);
    wait_for(first);
    start(nothing, 0, 1, -1);
    wait_for(-1);
    wait_for(start(illegal, 0, 1, -1));
    printf("pipe2: %d\n", pipe2(fds, O_CLOEXEC));
    pid_t reader = start(wc, fds[0], 1, -1);
    close(fds[0]);
    printf("without waiting: %d\n", waitpid(reader, &status, WNOHANG));
    write(fds[1], "two words\n", 10);
    int killed = kill(reader, SIGTERM);
    printf("kill: %d%s%s\n", killed, killed ? " " : "", killed ? strerror(errno) : "");
    fflush(stdout);
    close(fds[1]);
    wait_for(reader);
    wait_for(-1);
    return 0;
}
