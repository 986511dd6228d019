/* The program that the kernel starts first (make kernel). It runs the start lines of /.starts, one after the other, and tells
   on the serial line, in lines that begin with "init: ", what each of them writes and how it ends:

       init: start K            the start line K begins, from 1
       init: out HEX            bytes that its processes wrote
       init: end exit CODE      how its first process ended, once all have ended that could write
       init: end signal NUMBER
       init: end errno NUMBER   it couldn't be started
       init: done               all have run; the machine is switched off

   So that a program finds here what it finds in the machine of `flatc run`: its files alone stand in the root, it is process 1
   in a namespace of its own, descriptor 0 reads a pipe with the bytes of /.input and no writer, 1 and 2 write into a pipe, and
   there are 32 descriptors. Arguments stand apart by one space each. */
#include "rt.h"

enum {
    DUP3 = 24, IOCTL = 29, UNLINKAT = 35, OPENAT = 56, CLOSE = 57, PIPE2 = 59, READ = 63, WRITE = 64, EXIT = 93, WAITID = 95,
    SCHED_SETSCHEDULER = 119, REBOOT = 142, EXECVE = 221, PRLIMIT = 261,
    HERE = -100, FOLDER = 0x200, CLOSED_BY_EXECVE = 02000000,
    NOFILE = 7, DESCRIPTORS = 32, WORDS = 64
};

static char starts[16384], input[65536];
static char *none[] = {0};
static volatile long failed; /* a child's errno, told by vfork's one memory */

static long call5(long n, long a, long b, long c, long d, long e)
{
    register long a0 __asm__("a0") = a;
    register long a1 __asm__("a1") = b;
    register long a2 __asm__("a2") = c;
    register long a3 __asm__("a3") = d;
    register long a4 __asm__("a4") = e;
    register long a7 __asm__("a7") = n;
    __asm__ volatile("ecall" : "+r"(a0) : "r"(a1), "r"(a2), "r"(a3), "r"(a4), "r"(a7) : "memory");
    return a0;
}

/* clone with CLONE_VM, CLONE_VFORK, CLONE_NEWPID and SIGCHLD: a vfork into a namespace of its own. It is a function of its
   own, since it returns twice. */
int start_child(void) __attribute__((returns_twice));
__asm__(".text\nstart_child:\n    li a0, 0x20004111\n    li a1, 0\n    li a7, 220\n    ecall\n    ret\n");

static void put_number(const char *word, u32 value)
{
    char digits[12], *at = digits + sizeof digits;
    *--at = 0;
    *--at = '\n';
    do
        *--at = '0' + value % 10;
    while (value /= 10);
    put("init: ");
    put(word);
    put(" ");
    put(at);
}

/* The bytes of a file, which is then removed. */
static u32 take(const char *path, char *to, u32 room)
{
    long file = call3(OPENAT, HERE, (long)path, 0), got;
    u32 size = 0;
    if (file < 0)
        return 0;
    while (size < room && (got = call3(READ, file, (long)to + size, room - size)) > 0)
        size += got;
    call3(CLOSE, file, 0, 0);
    call3(UNLINKAT, HERE, (long)path, 0);
    return size;
}

/* Tells what is written into a pipe, until nobody can write there any more. */
static void tell_bytes(long pipe)
{
    static char bytes[512], line[2 * sizeof bytes + 16] = "init: out ";
    const u32 prefix = len_of("init: out ");
    long got;
    while ((got = call3(READ, pipe, (long)bytes, sizeof bytes)) > 0) {
        u32 at = prefix;
        for (long i = 0; i < got; i++) {
            line[at++] = "0123456789abcdef"[bytes[i] >> 4 & 15];
            line[at++] = "0123456789abcdef"[bytes[i] & 15];
        }
        line[at++] = '\n';
        call3(WRITE, 1, (long)line, at);
    }
}

static void run(char **words, int in)
{
    int out[2];
    u32 info[32];
    failed = 0;
    call3(PIPE2, (long)out, CLOSED_BY_EXECVE, 0);
    long child = start_child();
    if (child == 0) {
        call3(DUP3, in, 0, 0);
        call3(DUP3, out[1], 1, 0);
        call3(DUP3, out[1], 2, 0);
        failed = -call3(EXECVE, (long)words[0], (long)words, (long)none);
        for (;;)
            call3(EXIT, 127, 0, 0);
    }
    call3(CLOSE, out[1], 0, 0);
    tell_bytes(out[0]);
    call3(CLOSE, out[0], 0, 0);
    if (child < 0)
        failed = -child;
    else
        call5(WAITID, 1, child, (long)info, 4, 0);
    if (failed)
        put_number("end errno", failed);
    else
        put_number(info[2] == 1 ? "end exit" : "end signal", info[5]);
}

/* Cuts the line at `at` into words, and gives the place of the next one. */
static char *cut(char *at, char **words)
{
    u32 count = 0;
    while (*at && *at != '\n') {
        if (count < WORDS)
            words[count++] = at;
        while (*at && *at != ' ' && *at != '\n')
            at++;
        if (*at == ' ')
            *at++ = 0;
    }
    words[count] = 0;
    if (*at)
        *at++ = 0;
    return at;
}

static int pipe_with(const char *bytes, u32 size)
{
    int ends[2];
    call3(PIPE2, (long)ends, CLOSED_BY_EXECVE, 0);
    call3(WRITE, ends[1], (long)bytes, size);
    call3(CLOSE, ends[1], 0, 0);
    return ends[0];
}

/* What only the kernel's start needs goes from the root. What a program writes is told before it runs on: this one goes before
   all others, and they don't inherit that. */
static void prepare(void)
{
    u64 most[2] = {DESCRIPTORS, DESCRIPTORS};
    int priority = 1;
    call3(UNLINKAT, HERE, (long)"/init", 0);
    call3(UNLINKAT, HERE, (long)"/dev/console", 0);
    call3(UNLINKAT, HERE, (long)"/dev", FOLDER);
    call3(UNLINKAT, HERE, (long)"/root", FOLDER);
    call5(PRLIMIT, 0, NOFILE, (long)most, 0, 0);
    call3(SCHED_SETSCHEDULER, 0, 0x40000001, (long)&priority);
}

int main(void)
{
    char *words[WORDS + 1];
    take("/.starts", starts, sizeof starts - 1);
    int in = pipe_with(input, take("/.input", input, sizeof input));
    prepare();
    u32 number = 0;
    for (char *line = starts; *line;) {
        line = cut(line, words);
        put_number("start", ++number);
        run(words, in);
    }
    put("init: done\n");
    call3(IOCTL, 1, 0x5409, 1); /* TCSBRK: until the serial line has sent all */
    call3(REBOOT, 0xfee1dead, 672274793, 0x4321fedc);
    return 0;
}
