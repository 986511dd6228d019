/* Calls that the machine doesn't serve, and that nothing it serves stands for, fail and say so: none of them pretends to succeed.
   Linux serves most of them, so under qemu-riscv32 this program says something else. */
#include <errno.h>
#include <fcntl.h>
#include <signal.h>
#include <stdio.h>
#include <string.h>
#include <sys/stat.h>
#include <sys/time.h>
#include <time.h>
#include <unistd.h>
#include <utime.h>

static void say(const char *call, long reply)
{
    printf("%s: %ld%s%s\n", call, reply, reply == -1 ? " " : "", reply == -1 ? strerror(errno) : "");
}

int main(void)
{
    struct timeval time_of;
    say("fork", fork());
    say("chdir", chdir("/"));
    say("rename", rename("absent", "present"));
    say("link", link("absent", "present"));
    say("symlink", symlink("absent", "present"));
    say("truncate", truncate("absent", 0));
    say("chmod", chmod("absent", 0600));
    say("chown", chown("absent", 0, 0));
    say("utime", utime("absent", 0));
    say("setuid", setuid(1));
    say("F_SETFL", fcntl(1, F_SETFL, O_NONBLOCK));
    say("kill", kill(getpid(), 0));
    say("gettimeofday", gettimeofday(&time_of, 0));
    say("usleep", usleep(1));
    say("clock", clock() == (clock_t)-1 ? -1 : 0);
    return 0;
}
