/* What a Linux C library has and newlib hasn't, or has otherwise, by no call of its own. */
#define _GNU_SOURCE
#include <arpa/inet.h>
#include <byteswap.h>
#include <endian.h>
#include <errno.h>
#include <getopt.h>
#include <glob.h>
#include <malloc.h>
#include <mntent.h>
#include <netdb.h>
#include <setjmp.h>
#include <signal.h>
#include <stdio.h>
#include <stdlib.h>
#include <string.h>
#include <sys/sysmacros.h>
#include <unistd.h>

static void try_getopt(void)
{
    static const struct option options[] = {{"long", required_argument, 0, 'l'}, {0, 0, 0, 0}};
    char *words[] = {"getopt", "first", "-ab", "5", "-", "--long=4", "last", 0};
    int option;
    while ((option = getopt_long(7, words, "ab:", options, 0)) != -1)
        printf("option %c %s\n", option, optarg ? optarg : "-");
    printf("left: %s %s %s\n", words[optind], words[optind + 1], words[optind + 2]);
}

static void try_malloc(void)
{
    static void *blocks[64];
    int count = 0;
    while (count < 64 && (blocks[count] = malloc(10000 + count)))
        count++;
    for (int i = 0; i < count; i++)
        memset(blocks[i], i, 10000 + i);
    int wrong = 0;
    for (int i = 0; i < count; i++)
        wrong += *(unsigned char *)blocks[i] != i || *((unsigned char *)blocks[i] + 9999 + i) != i;
    size_t most = mallinfo().arena;
    for (int i = 0; i < count; i++)
        free(blocks[i]);
    printf("malloc: %d blocks, %d wrong; given back: %s\n", count, wrong, mallinfo().arena < most / 4 ? "yes" : "no");
    char *wide = memalign(256, 100), *moved = realloc(malloc(10), 200000);
    printf("memalign: %d, realloc: %s\n", (int)((unsigned long)wide % 256), moved ? "done" : "no");
}

static void try_lines(void)
{
    char *line = 0;
    size_t room = 0;
    struct mntent entry = {"a device", "/mnt", "ramfs", "ro,noauto", 0, 1}, *read;
    FILE *file = setmntent("table", "w+");
    addmntent(file, &entry);
    rewind(file);
    printf("getline: %d bytes\n", (int)getline(&line, &room, file));
    rewind(file);
    read = getmntent(file);
    printf("getmntent: %s on %s, %s\n", read->mnt_fsname, read->mnt_dir, hasmntopt(read, "noauto") ? "not by itself" : "at once");
    endmntent(file);
    unlink("table");
}

static void try_names(void)
{
    glob_t found;
    struct in_addr address;
    struct addrinfo *info;
    printf("glob: %s\n", glob("nothing-like-this*", 0, 0, &found) == GLOB_NOMATCH ? "no match" : "other");
    printf("inet_aton: %d %s\n", inet_aton("10.0.258", &address), inet_ntoa(address));
    printf("getaddrinfo: %d, %s\n", getaddrinfo("127.0.0.1", "80", 0, &info), gai_strerror(getaddrinfo("a-name", 0, 0, &info)));
    clearenv();
    printf("execvp: %d %m\n", execvp("no-such-program", (char *[]){"no-such-program", 0}));
    printf("ttyname: %s\n", ttyname(0) ? "a terminal" : "none");
}

static void try_jump(void)
{
    sigjmp_buf at;
    sigset_t set, now;
    sigemptyset(&set);
    sigaddset(&set, SIGUSR2);
    int times = sigsetjmp(at, 1);
    if (!times) {
        sigprocmask(SIG_BLOCK, &set, 0);
        siglongjmp(at, 7);
    }
    sigprocmask(SIG_BLOCK, 0, &now);
    printf("siglongjmp: %d, blocked: %d\n", times, sigismember(&now, SIGUSR2));
}

int main(void)
{
    const char *volatile none = 0;
    try_getopt();
    try_malloc();
    try_lines();
    try_names();
    try_jump();
    printf("printf: %s\n", none);
    printf("bytes: %#x %#llx\n", (unsigned)bswap_32(0x01020304), (unsigned long long)htobe64(1));
    printf("device: %d %d\n", (int)major(makedev(8, 300)), (int)minor(makedev(8, 300)));
    printf("signals: %d %d %d\n", SIGCHLD, SIGUSR1, SIGBUS);
    return 0;
}
