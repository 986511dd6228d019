/* The calls behind the C library one by one, with what they answer and why they fail. */
#define _GNU_SOURCE
#include <dirent.h>
#include <errno.h>
#include <fcntl.h>
#include <stdio.h>
#include <stdlib.h>
#include <string.h>
#include <sys/ioctl.h>
#include <sys/mman.h>
#include <sys/stat.h>
#include <sys/uio.h>
#include <unistd.h>

static void say(const char *call, long reply)
{
    printf("%s: %ld%s%s\n", call, reply, reply == -1 ? " " : "", reply == -1 ? strerror(errno) : "");
}

static void transfers(void)
{
    char a[10] = "", b[10] = "";
    struct iovec out[3] = {{"abc", 3}, {"defg", 4}, {"\n", 1}}, in[2] = {{a, 2}, {b, 9}};
    int fd = creat("made.txt", 0644);
    say("writev", writev(fd, out, 3));
    say("read of a file to be written", read(fd, a, 1));
    say("dup", dup(fd));
    say("dup3 of equal ones", dup3(fd, fd, 0));
    say("dup3 with another flag", dup3(fd, 10, O_APPEND));
    say("dup3", dup3(fd, 10, O_CLOEXEC));
    say("dup3 of none", dup3(77, 11, 0));
    close(fd);
    close(10);
    fd = openat(AT_FDCWD, "made.txt", O_RDWR | O_APPEND);
    say("readv", readv(fd, in, 2));
    printf("%s %s", a, b);
    say("write at the end", write(fd, "end\n", 4));
    say("lseek", lseek(fd, 0, SEEK_CUR));
    say("lseek below 0", lseek(fd, -100, SEEK_CUR));
    say("lseek to 2^31 - 1", lseek(fd, 0x7fffffff, SEEK_SET));
    say("lseek to 2^31", lseek(fd, 1, SEEK_CUR));
    close(fd);
}

/* An end of a pipe isn't a file: what is asked of it otherwise than to be read or written fails. */
static void pipes(void)
{
    char a[4097] = "", b[8] = "";
    struct iovec out[2] = {{"pi", 2}, {"pes\n", 4}}, in[2] = {{b, 3}, {a, 9}};
    int fds[2] = {-1, -1}, more[2] = {-1, -1};
    say("pipe2", pipe2(fds, O_CLOEXEC));
    say("from its first end to its second", fds[1] - fds[0]);
    say("pipe2 with another flag", pipe2(more, O_APPEND));
    say("writev", writev(fds[1], out, 2));
    say("readv", readv(fds[0], in, 2));
    printf("%s%s", b, a);
    say("read of the end to be written", read(fds[1], a, 1));
    say("write to the end to be read", write(fds[0], a, 1));
    say("write of no bytes", write(fds[1], a, 0));
    say("read of no bytes", read(fds[0], a, 0));
    say("lseek", lseek(fds[0], 0, SEEK_CUR));
    say("mmap", (long)mmap(0, 12, PROT_READ, MAP_PRIVATE, fds[0], 0));
    say("fdopendir", fdopendir(fds[0]) ? 0 : -1);
    say("a terminal", isatty(fds[0]));
    say("dup2 of equal ones", dup2(fds[0], fds[0]) - fds[0]);
    say("dup2", dup2(fds[1], 10));
    close(fds[1]);
    say("write by the other one", write(10, a, sizeof a));
    close(10);
    say("read", read(fds[0], a, 4000));
    say("read of the rest", read(fds[0], a, 4000));
    say("read at the end", read(fds[0], a, 4000));
    close(fds[0]);
    for (int i = 0; i < 32 && dup(1) != 30; i++)
        ;
    say("pipe with one free descriptor", pipe(more));
    for (int fd = 3; fd < 31; fd++)
        close(fd);
}

static void mappings(void)
{
    int fd = open("made.txt", O_RDONLY);
    char *at = mmap(0, 12, PROT_READ | PROT_WRITE, MAP_PRIVATE, fd, 0);
    at[0] = 'X';
    printf("%.12s", at);
    say("munmap", munmap(at, 12));
    say("mmap of none", (long)mmap(0, 12, PROT_READ, MAP_PRIVATE, 99, 0));
    say("mmap within a page", (long)mmap(0, 12, PROT_READ, MAP_PRIVATE, fd, 100));
    say("mmap of no bytes", (long)mmap(0, 0, PROT_READ, MAP_PRIVATE, fd, 0));
    say("sbrk", sbrk(0) == sbrk(16));
    say("sbrk of too much", (long)sbrk(1 << 30));
    say("sbrk below its start", (long)sbrk(-(1 << 30)));
    close(fd);
}

static void paths(void)
{
    char name[300];
    memset(name, 'n', sizeof name - 1);
    name[sizeof name - 1] = 0;
    say("open of a file that is there", open("made.txt", O_CREAT | O_EXCL | O_WRONLY, 0600));
    say("open of a file as a folder", open("made.txt", O_DIRECTORY));
    say("open of none", open("none", O_RDONLY));
    say("open of a folder to be written", open(".", O_WRONLY));
    say("open of a long name", open(name, O_RDONLY));
    mkdir("made", 0755);
    say("rmdir of a file", rmdir("made.txt"));
    say("unlink of a folder", unlink("made"));
    close(open("made/x", O_CREAT | O_WRONLY, 0644));
    DIR *dir = fdopendir(open("made", O_RDONLY));
    struct dirent *entry;
    int n = 0;
    for (int k = 0; k < 2; k++, rewinddir(dir))
        while ((entry = readdir(dir)))
            n += entry->d_name[0] == 'x' && entry->d_type == DT_REG;
    closedir(dir);
    say("one entry, twice", n);
    int fd = open("made.txt", O_WRONLY | O_TRUNC);
    say("lseek to the end of an emptied file", lseek(fd, 0, SEEK_END));
    say("fdopendir of a file", fdopendir(fd) ? 0 : -1);
    say("ioctl", ioctl(fd, 0x5401, name));
    say("ioctl of none", ioctl(99, 0x5401, name));
    say("close of none", close(99));
    unlink("made/x");
    say("rmdir", rmdir("made"));
    say("remove", remove("made.txt"));
    say("remove again", remove("made.txt"));
}

static void streams(void)
{
    char *text = 0;
    size_t size = 0;
    int sum = 0, value;
    FILE *file = fopen("made.txt", "w+");
    setvbuf(file, 0, _IOFBF, 64);
    for (int i = 0; i < 100; i++)
        fprintf(file, "%d,", i);
    rewind(file);
    while (fscanf(file, "%d,", &value) == 1)
        sum += value;
    say("the sum of what was written", sum);
    fseek(file, 10, SEEK_SET);
    say("ftell", ftell(file));
    fclose(file);
    freopen("made.txt", "r", stdin);
    say("getchar behind freopen", getchar());
    unlink("made.txt");
    file = fdopen(dup(1), "w");
    fprintf(file, "by fdopen\n");
    fclose(file);
    file = open_memstream(&text, &size);
    fprintf(file, "memory");
    fclose(file);
    printf("%s %d\n", text, (int)size);
    fprintf(stderr, "to standard error\n");
}

int main(void)
{
    setvbuf(stdout, 0, _IOLBF, 0);
    transfers();
    pipes();
    mappings();
    paths();
    streams();
    return 3;
}
