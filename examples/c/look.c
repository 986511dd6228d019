/* What a program may ask of files and descriptors, and of itself, before it works: stat and its kin, access, fcntl, paths, limits,
   signals that it raises, regular expressions and atomics. */
#define _GNU_SOURCE
#include <errno.h>
#include <fcntl.h>
#include <libgen.h>
#include <regex.h>
#include <signal.h>
#include <stdatomic.h>
#include <stdio.h>
#include <stdlib.h>
#include <string.h>
#include <sys/stat.h>
#include <termios.h>
#include <unistd.h>

static void say(const char *call, long reply)
{
    printf("%s: %ld%s%s\n", call, reply, reply == -1 ? " " : "", reply == -1 ? strerror(errno) : "");
}

static void look(const char *path)
{
    struct stat of;
    if (stat(path, &of) == -1)
        printf("%s: %s\n", path, strerror(errno));
    else if (S_ISREG(of.st_mode))
        printf("%s: a file of %ld bytes\n", path, (long)of.st_size);
    else
        printf("%s: %s\n", path, S_ISDIR(of.st_mode) ? "a folder" : "neither file nor folder");
}

static void files(void)
{
    struct stat of, other;
    look("poem.txt");
    look("poem.txt/none");
    look("none");
    look(".");
    int fd = open("poem.txt", O_RDONLY);
    lseek(fd, 5, SEEK_SET);
    say("fstat", fstat(fd, &of));
    say("its size", of.st_size);
    say("the position behind it", lseek(fd, 0, SEEK_CUR));
    say("lstat", lstat("poem.txt", &other));
    say("fstatat", fstatat(AT_FDCWD, "none", &other, AT_SYMLINK_NOFOLLOW));
    close(fd);
    say("fstat of none", fstat(fd, &of));
    say("access", access("poem.txt", R_OK | W_OK));
    say("access of none", access("none", F_OK));
    say("access to execute a file", access("poem.txt", X_OK));
    say("access to execute a folder", access(".", X_OK));
    say("readlink of none", readlink("none", (char *)&of, 1));
    say("readlink of a file", readlink("poem.txt", (char *)&of, 1));
}

static void descriptors(void)
{
    struct stat of;
    struct termios termios;
    int ends[2], fd = open("poem.txt", O_RDWR | O_CLOEXEC);
    pipe(ends);
    say("F_GETFD", fcntl(fd, F_GETFD));
    say("F_SETFD", fcntl(fd, F_SETFD, 0));
    say("F_GETFD", fcntl(fd, F_GETFD));
    say("F_DUPFD", fcntl(fd, F_DUPFD, 20));
    say("F_DUPFD again", fcntl(fd, F_DUPFD, 20));
    say("F_DUPFD_CLOEXEC", fcntl(fd, F_DUPFD_CLOEXEC, 0) - ends[1]);
    say("F_GETFD of a duplicate", fcntl(20, F_GETFD));
    say("F_GETFD of another", fcntl(ends[1] + 1, F_GETFD));
    say("F_DUPFD above all", fcntl(fd, F_DUPFD, 32));
    say("F_GETFD of none", fcntl(29, F_GETFD));
    say("F_GETFL", fcntl(fd, F_GETFL));
    say("F_GETFL of one end", fcntl(ends[0], F_GETFL));
    say("F_GETFL of the other", fcntl(ends[1], F_GETFL));
    say("fstat of a pipe", fstat(ends[0], &of));
    say("a pipe", S_ISFIFO(of.st_mode));
    say("fsync", fsync(fd));
    say("fsync of a pipe", fsync(ends[1]));
    say("tcgetattr", tcgetattr(ends[0], &termios));
    say("fpathconf", fpathconf(ends[0], _PC_PIPE_BUF));
    say("pathconf", pathconf(".", _PC_NAME_MAX));
    say("a page", sysconf(_SC_PAGESIZE));
}

static void paths(void)
{
    char here[1024], whole[1024], path[] = "some/where/far.c";
    getcwd(here, sizeof here);
    realpath("././poem.txt", whole);
    say("realpath is below getcwd", !strncmp(here, whole, strlen(here)));
    printf("%s\n", basename(whole));
    say("realpath of none", realpath("none/poem.txt", 0) ? 0 : -1);
    printf("%s\n", basename(path));
    printf("%s\n", dirname(path));
    umask(027);
    printf("umask: %o\n", (unsigned)umask(022));
    say("one user", getuid() == geteuid() && getgid() == getegid());
}

static void handler(int n)
{
    printf("signal %d\n", n);
}

static void signals(void)
{
    struct sigaction action = {.sa_handler = handler}, before;
    sigset_t set;
    say("sigaction", sigaction(SIGINT, &action, 0));
    raise(SIGINT);
    raise(SIGINT);
    sigemptyset(&set);
    sigaddset(&set, SIGINT);
    sigprocmask(SIG_BLOCK, &set, 0);
    raise(SIGINT);
    printf("it is held back\n");
    sigprocmask(SIG_UNBLOCK, &set, 0);
    action.sa_handler = SIG_IGN;
    sigaction(SIGINT, &action, &before);
    say("the handler before", before.sa_handler == handler);
    say("an ignored signal", raise(SIGINT));
    say("sigaction of SIGKILL", sigaction(SIGKILL, &action, 0));
}

int main(void)
{
    static atomic_int count;
    static atomic_flag flag = ATOMIC_FLAG_INIT;
    regex_t regex;
    regmatch_t match[2];
    files();
    descriptors();
    paths();
    signals();
    say("regcomp", regcomp(&regex, "a(b*)c", REG_EXTENDED));
    say("regexec", regexec(&regex, "xxabbbc", 2, match, 0));
    printf("from %d to %d\n", (int)match[1].rm_so, (int)match[1].rm_eo);
    regfree(&regex);
    atomic_fetch_add(&count, 3);
    say("the count before", atomic_fetch_or(&count, 4));
    say("the count", atomic_load(&count));
    say("the flag", atomic_flag_test_and_set(&flag));
    say("the flag again", atomic_flag_test_and_set(&flag));
    return 0;
}
