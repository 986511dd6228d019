/* Where Linux answers otherwise than the machine: differ.kernel says how the kernel of `make kernel` does. "pieces" and "pointer"
   are runs of their own, since the kernel doesn't come to their ends. */
#include <dirent.h>
#include <errno.h>
#include <fcntl.h>
#include <stdio.h>
#include <stdlib.h>
#include <string.h>
#include <sys/wait.h>
#include <unistd.h>

static char bytes[65536];

static void say(const char *call, long reply)
{
    printf("%s: %ld%s%s\n", call, reply, reply == -1 ? " " : "", reply == -1 ? strerror(errno) : "");
}

static void say_and_close(const char *call, int fd)
{
    say(call, fd < 0 ? fd : 0);
    if (fd >= 0)
        close(fd);
}

/* Starts a program with the descriptors 0 and 1 at the ends of a pipe, where they aren't -1, and says how it ended. */
static void start(const char *what, const char *path, char *const words[], int in, int out)
{
    int status = 0;
    fflush(stdout);
    pid_t child = vfork();
    if (child == 0) {
        if (in >= 0)
            dup2(in, 0);
        if (out >= 0)
            dup2(out, 1);
        execv(path, words);
        _exit(errno);
    }
    waitpid(child, &status, 0);
    if (WIFEXITED(status))
        printf("%s: exit %d\n", what, WEXITSTATUS(status));
    else
        printf("%s: signal %d\n", what, WTERMSIG(status));
}

static int entries(DIR *folder, int remove)
{
    int count = 0;
    for (struct dirent *entry; (entry = readdir(folder));) {
        char path[64] = "made/";
        count += !remove || unlink(strcat(path, entry->d_name)) == 0;
    }
    return count;
}

static void folders(void)
{
    char path[32];
    mkdir("made", 0777);
    DIR *folder = opendir("made");
    say("entries of an empty folder", entries(folder, 0));
    closedir(folder);
    for (int i = 0; i < 200; i++) {
        sprintf(path, "made/name%d", i);
        close(creat(path, 0666));
    }
    folder = opendir("made");
    say("files that a loop of readdir and unlink removes, of 200", entries(folder, 1));
    while (rewinddir(folder), entries(folder, 1))
        ;
    say_and_close("a path from an open folder", openat(dirfd(folder), "file", O_CREAT | O_WRONLY, 0666));
    closedir(folder);
    unlink("made/file");
    say_and_close("a slash behind the name of a new file", open("made/file/", O_CREAT | O_WRONLY, 0666));
    unlink("made/file");
    say("unlink of a path that ends with a point", unlink("made/."));
    say("rmdir of one that ends with two", rmdir("made/.."));
    say("rmdir of the root", rmdir("/"));
    say_and_close("O_CREAT with O_DIRECTORY", open("made/file", O_CREAT | O_DIRECTORY, 0666));
    unlink("made/file");
    rmdir("made");
}

static void files(const char *program)
{
    int fd = creat("file", 0666);
    write(fd, "text", 4);
    say("lseek to 16 MiB", lseek(fd, 1 << 24, SEEK_SET));
    say("write there", write(fd, "x", 1));
    close(fd);
    say_and_close("the access mode 3", open("file", O_ACCMODE));
    fd = open("file", O_RDONLY | O_TRUNC);
    say("read of a file that O_TRUNC opened to be read", read(fd, bytes, 4));
    close(fd);
    unlink("file");
    say_and_close("a program that runs, to be written", open(program, O_WRONLY));
}

static void copy(const char *from, const char *to)
{
    int source = open(from, O_RDONLY), target = open(to, O_CREAT | O_WRONLY, 0777), got;
    while ((got = read(source, bytes, sizeof bytes)) > 0)
        write(target, bytes, got);
    close(source);
    close(target);
}

static void programs(char *self)
{
    char *none[] = {0}, *atomic[] = {self, "atomic", 0}, *nothing[] = {self, "nothing", 0};
    copy(self, "copied");
    start("a copy of a program", "copied", nothing, -1, -1);
    unlink("copied");
    start("an execve without arguments", self, none, -1, -1);
    start("amoadd.w", self, atomic, -1, -1);
}

/* One write of more than a pipe holds, while a child reads. */
static void large_write(char *self)
{
    char *reader[] = {self, "reader", 0};
    int ends[2], status;
    pipe(ends);
    fflush(stdout);
    pid_t child = vfork();
    if (child == 0) {
        close(ends[1]);
        dup2(ends[0], 0);
        execv(self, reader);
        _exit(errno);
    }
    close(ends[0]);
    write(ends[1], bytes, 1);
    say("one write of 65536 bytes behind one of 1", write(ends[1], bytes, sizeof bytes));
    close(ends[1]);
    waitpid(child, &status, 0);
}

/* 20 writes of 3000 bytes each, before anybody reads: 60,000 bytes, less than a pipe holds here. */
static void pieces(void)
{
    int ends[2], total = 0, got;
    pipe(ends);
    printf("writes\n");
    for (int i = 0; i < 20; i++)
        write(ends[1], bytes, 3000);
    close(ends[1]);
    while ((got = read(ends[0], bytes, sizeof bytes)) > 0)
        total += got;
    printf("reads %d\n", total);
}

static int atomic_add(void)
{
    static int word;
    __asm__ volatile(".option push\n.option arch, +a\namoadd.w zero, %1, (%0)\n.option pop" : : "r"(&word), "r"(5) : "memory");
    return word;
}

static int own_child(int argc, char **argv)
{
    if (argc < 2)
        return 100 + argc;
    if (!strcmp(argv[1], "atomic"))
        return atomic_add();
    if (!strcmp(argv[1], "reader"))
        while (read(0, bytes, sizeof bytes) > 0)
            ;
    else if (!strcmp(argv[1], "pieces"))
        pieces();
    else if (!strcmp(argv[1], "pointer")) {
        printf("writes from an address that is nobody's\n");
        say("write", write(1, (void *)0x10, 16));
    }
    return 0;
}

int main(int argc, char **argv)
{
    setvbuf(stdout, 0, _IOLBF, 0);
    if (argc != 1 || !argv[0][0])
        return own_child(argc, argv);
    folders();
    files(argv[0]);
    programs(argv[0]);
    large_write(argv[0]);
    return 0;
}
