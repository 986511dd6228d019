/* Runs that get stuck, as they do when a program forgets an end of a pipe. Without an argument: the parent keeps the writing
   end that it gave to its child, and waits for the child, which reads on until all writing ends are closed. With "full": a
   process fills a pipe that it alone could empty. */
#include <stdio.h>
#include <string.h>
#include <sys/wait.h>
#include <unistd.h>

static void say(const char *text)
{
    write(2, text, strlen(text));
}

static int reader(void)
{
    char bytes[64];
    int got;
    while ((got = read(0, bytes, sizeof bytes)) > 0)
        write(2, bytes, got);
    say("never\n");
    return 0;
}

static int full(int out)
{
    static char bytes[4096];
    for (int i = 0; i < 16; i++)
        write(out, bytes, sizeof bytes);
    say("65536 bytes are written\n");
    write(out, bytes, 1);
    say("never\n");
    return 0;
}

int main(int argc, char **argv)
{
    setvbuf(stdout, 0, _IOLBF, 0);
    int fds[2];
    if (argc > 1 && !strcmp(argv[1], "reader"))
        return reader();
    if (pipe(fds) == -1)
        return 1;
    if (argc > 1)
        return full(fds[1]);
    pid_t child = vfork();
    if (child == 0) {
        char *words[] = {argv[0], "reader", 0};
        close(fds[1]);
        dup2(fds[0], 0);
        close(fds[0]);
        execv("stuck", words);
        _exit(127);
    }
    close(fds[0]);
    say("the parent writes\n");
    write(fds[1], "text\n", 5);
    /* Here close(fds[1]) is missing. */
    waitpid(child, 0, 0);
    say("never\n");
    return 0;
}
