/* A small shell with pipes: a line is programs with their words, joined by |, the first of them with < FILE, the last one with
   > FILE, each sign with spaces around it. It starts them all, waits for all, and then says of each that didn't end with 0 how it
   ended. With -c LINE it runs that line alone, and ends as the last program of it did. The names of programs and files are
   relative: in the machine they begin at the root, under Linux where the shell stands. */
#include <errno.h>
#include <fcntl.h>
#include <stdio.h>
#include <string.h>
#include <sys/wait.h>
#include <unistd.h>

enum { WORDS = 16, PROGRAMS = 8 };

static void complain(const char *name, const char *why)
{
    printf("shell: %s: %s\n", name, why);
}

/* Starts a program whose descriptors 0 and 1 are to be in and out, and closes these here: as long as anybody holds the end of a
   pipe that is written, its reader doesn't come to an end. The child runs in the shell's memory, so it changes none of it;
   what it closes are its own descriptors. `unused` is the other end of its own output: as long as it held that, a write to a
   pipe without another reader would wait, and not fail. */
static pid_t start(char **words, int in, int out, int unused)
{
    fflush(stdout);
    pid_t child = vfork();
    if (child == 0) {
        if (unused >= 0)
            close(unused);
        if (in != 0) {
            dup2(in, 0);
            close(in);
        }
        if (out != 1) {
            dup2(out, 1);
            close(out);
        }
        execv(words[0], words);
        static const char text[] = "shell: no such program\n";
        write(2, text, sizeof text - 1);
        _exit(127);
    }
    if (child == -1)
        complain(words[0], strerror(errno));
    if (in != 0)
        close(in);
    if (out != 1)
        close(out);
    return child;
}

static void tell(const char *name, int status)
{
    if (WIFSIGNALED(status))
        printf("shell: %s: signal %d\n", name, WTERMSIG(status));
    else if (WEXITSTATUS(status))
        printf("shell: %s: exit %d\n", name, WEXITSTATUS(status));
}

/* The file behind a sign is opened as `flags` say, and the two words go: the descriptor, or `otherwise` without a sign. */
static int redirected(char **words, const char *sign, int flags, int otherwise)
{
    while (*words && strcmp(*words, sign))
        words++;
    if (!*words || !words[1])
        return otherwise;
    int fd = open(words[1], flags, 0644);
    if (fd == -1)
        complain(words[1], strerror(errno));
    do
        words[0] = words[2];
    while (*words++);
    return fd;
}

/* Runs a line, and gives the status of its last program; `telling` says whether the shell tells how they ended. */
static int run(char **words, int telling)
{
    char **first[PROGRAMS + 1];
    pid_t children[PROGRAMS];
    int status[PROGRAMS] = {0}, count = 0;
    int in = redirected(words, "<", O_RDONLY, 0);
    int out = in == -1 ? -1 : redirected(words, ">", O_WRONLY | O_CREAT | O_TRUNC, 1);
    if (out == -1) {
        if (in > 0)
            close(in);
        return 1 << 8;
    }
    first[count++] = words;
    for (; *words; words++)
        if (!strcmp(*words, "|") && words[1] && count < PROGRAMS) {
            *words = 0;
            first[count++] = words + 1;
        }
    for (int i = 0; i < count; i++) {
        int fds[2] = {-1, out};
        if (i + 1 < count && pipe(fds) == -1) {
            complain("pipe", strerror(errno));
            count = i + 1;
        }
        children[i] = start(first[i], in, fds[1], fds[0]);
        in = fds[0];
    }
    for (int i = 0; i < count; i++)
        if (children[i] != -1 && waitpid(children[i], &status[i], 0) != children[i])
            complain(first[i][0], strerror(errno));
    for (int i = 0; telling && i < count; i++)
        tell(first[i][0], status[i]);
    return status[count - 1];
}

static int words_of(char *line, char **words)
{
    int count = 0;
    for (char *word = strtok(line, " \n"); word && count < WORDS; word = strtok(0, " \n"))
        words[count++] = word;
    words[count] = 0;
    return count;
}

int main(int argc, char **argv)
{
    setvbuf(stdout, 0, _IOLBF, 0);
    char line[128], *words[WORDS + 1];
    if (argc == 3 && !strcmp(argv[1], "-c")) {
        int status = words_of(argv[2], words) ? run(words, 0) : 0;
        return WIFSIGNALED(status) ? 128 + WTERMSIG(status) : WEXITSTATUS(status);
    }
    while (fgets(line, sizeof line, stdin)) {
        printf("$ %s", line);
        if (words_of(line, words))
            run(words, 1);
    }
    printf("no child is left: %d\n", waitpid(-1, 0, 0) == -1 && errno == ECHILD);
    return 0;
}
