/* What a program may ask of Linux, a line for each call of the kit: where the machine doesn't serve it, ENOSYS, or what the kit
   knows without it. */
#define _GNU_SOURCE
#include <errno.h>
#include <fcntl.h>
#include <grp.h>
#include <poll.h>
#include <sched.h>
#include <signal.h>
#include <stdio.h>
#include <string.h>
#include <sys/klog.h>
#include <sys/mount.h>
#include <sys/prctl.h>
#include <sys/reboot.h>
#include <sys/resource.h>
#include <sys/sendfile.h>
#include <sys/socket.h>
#include <sys/stat.h>
#include <sys/statvfs.h>
#include <sys/syscall.h>
#include <sys/sysinfo.h>
#include <sys/time.h>
#include <sys/utsname.h>
#include <sys/vfs.h>
#include <sys/wait.h>
#include <time.h>
#include <unistd.h>

static void say(const char *call, long reply)
{
    printf("%s: %s\n", call, reply == -1 ? strerror(errno) : "done");
}

static void ask_times(void)
{
    struct timespec time = {0, 1000};
    struct timeval now;
    struct itimerval none = {{0, 0}, {0, 0}};
    struct rusage usage;
    say("clock_gettime", clock_gettime(CLOCK_MONOTONIC, &time));
    say("clock_getres", clock_getres(CLOCK_REALTIME, &time));
    time = (struct timespec){0, 1000};
    say("clock_settime", clock_settime(CLOCK_MONOTONIC, &time));
    say("nanosleep", nanosleep(&time, 0));
    int error = clock_nanosleep(CLOCK_MONOTONIC, 0, &time, 0);
    printf("clock_nanosleep: %s\n", error ? strerror(error) : "done");
    say("gettimeofday", gettimeofday(&now, 0));
    say("setitimer", setitimer(ITIMER_REAL, &none, 0));
    say("getitimer", getitimer(ITIMER_REAL, &none));
    printf("alarm: %u\n", alarm(0));
    say("getrusage", getrusage(RUSAGE_SELF, &usage));
}

static void ask_process(void)
{
    cpu_set_t set;
    struct rlimit limit;
    printf("gettid: %s\n", gettid() == getpid() ? "the process" : "another");
    say("setpgid", setpgid(0, 0));
    say("getpgid", getpgid(0));
    say("getsid", getsid(0));
    say("setsid", setsid());
    say("getpriority", getpriority(PRIO_PROCESS, 0));
    say("setpriority", setpriority(PRIO_PROCESS, 0, 0));
    say("setgroups", setgroups(0, 0));
    say("getgroups", getgroups(0, 0));
    say("seteuid", seteuid(0));
    say("setegid", setegid(0));
    say("prctl", prctl(PR_GET_DUMPABLE, 0, 0, 0, 0));
    say("sched_getaffinity", sched_getaffinity(0, sizeof set, &set));
    printf("processors: %d\n", CPU_ISSET(0, &set) && !CPU_ISSET(1, &set));
    say("sched_setaffinity", sched_setaffinity(0, sizeof set, &set));
    say("getrlimit", getrlimit(RLIMIT_NOFILE, &limit));
    printf("descriptors: %d\n", (int)limit.rlim_cur);
    say("setrlimit", setrlimit(RLIMIT_NOFILE, &limit));
    say("kill", kill(getpid(), 0));
    say("syscall", syscall(SYS_gettid));
}

static void ask_system(void)
{
    struct utsname name;
    struct sysinfo info;
    struct statfs room;
    struct statvfs other;
    say("uname", uname(&name));
    printf("system: %s %s\n", name.sysname, name.machine);
    say("sethostname", sethostname("box", 3));
    say("sysinfo", sysinfo(&info));
    say("klogctl", klogctl(10, 0, 0));
    say("reboot", reboot(1));
    say("mount", mount("none", "/nowhere", "ramfs", 0, 0));
    say("umount", umount("/nowhere"));
    say("statfs", statfs("/", &room));
    say("fstatfs", fstatfs(1, &room));
    say("statvfs", statvfs("/", &other));
    say("mknod", mknod("/fifo", S_IFIFO | 0600, 0));
    say("chroot", chroot("/"));
    say("swapon", swapon("/nowhere", 0));
    say("swapoff", swapoff("/nowhere"));
}

/* The kernel of `make kernel` has no network, and no sockets either. */
static void ask_sockets(void)
{
    struct sockaddr address = {.sa_family = AF_UNIX};
    struct msghdr message = {0};
    socklen_t size = sizeof address;
    int value = 1;
    say("socket", socket(AF_UNIX, SOCK_STREAM, 0));
    say("bind", bind(0, &address, size));
    say("listen", listen(0, 1));
    say("accept", accept(0, &address, &size));
    say("connect", connect(0, &address, size));
    say("getsockname", getsockname(0, &address, &size));
    say("getpeername", getpeername(0, &address, &size));
    say("send", send(0, &value, sizeof value, 0));
    say("recv", recv(0, &value, sizeof value, 0));
    say("setsockopt", setsockopt(0, SOL_SOCKET, SO_KEEPALIVE, &value, sizeof value));
    say("getsockopt", getsockopt(0, SOL_SOCKET, SO_KEEPALIVE, &value, &size));
    say("shutdown", shutdown(0, SHUT_RDWR));
    say("sendmsg", sendmsg(0, &message, 0));
    say("recvmsg", recvmsg(0, &message, 0));
}

static void ask_files(void)
{
    struct flock lock = {.l_type = F_WRLCK};
    int file = open("/file", O_RDWR | O_CREAT, 0600);
    struct pollfd fds[2] = {{file, POLLIN | POLLOUT, 0}, {30, POLLIN, 0}};
    say("fcntl, F_SETLK", fcntl(file, F_SETLK, &lock));
    say("fcntl, F_GETLK", fcntl(file, F_GETLK, &lock));
    say("syncfs", syncfs(file));
    say("fchdir", fchdir(open("/", O_RDONLY)));
    say("sendfile", sendfile(1, file, 0, 1));
    printf("poll: %d, %#x, %#x\n", poll(fds, 2, -1), fds[0].revents, fds[1].revents);
    say("linkat", linkat(AT_FDCWD, "/file", AT_FDCWD, "/link", 0));
    say("symlinkat", symlinkat("file", AT_FDCWD, "/symbolic"));
    say("renameat", renameat(AT_FDCWD, "/file", AT_FDCWD, "/other"));
    say("fchownat", fchownat(AT_FDCWD, "/other", 0, 0, 0));
}

static void caught(int number)
{
    printf("caught: %d\n", number);
}

static void ask_signals(void)
{
    struct sigaction action = {.sa_handler = caught}, before;
    sigset_t set, all, none;
    sigemptyset(&none);
    sigemptyset(&set);
    sigaddset(&set, SIGUSR1);
    say("sigaction", sigaction(SIGUSR1, &action, &before));
    say("raise", raise(SIGUSR1));
    say("sigprocmask", sigprocmask(SIG_BLOCK, &set, &all));
    say("raise, blocked", raise(SIGUSR1));
    sigpending(&all);
    printf("pending: %d\n", sigismember(&all, SIGUSR1));
    say("sigsuspend", sigsuspend(&none));
    say("raise, blocked", raise(SIGUSR1));
    printf("sigtimedwait: %d\n", sigtimedwait(&set, 0, &(struct timespec){0, 0}));
    say("sigtimedwait", sigtimedwait(&set, 0, &(struct timespec){0, 0}));
    sigaction(SIGUSR1, 0, &action);
    printf("handler: %s\n", action.sa_handler == caught ? "kept" : "lost");
}

static void ask_children(void)
{
    struct rusage usage;
    siginfo_t info;
    int status = 0;
    fflush(stdout);
    if (vfork() == 0)
        _exit(3);
    say("wait4", wait4(-1, &status, WUNTRACED, &usage));
    printf("exit: %d\n", WEXITSTATUS(status));
    if (vfork() == 0)
        _exit(4);
    say("waitid", waitid(P_ALL, 0, &info, WEXITED | WSTOPPED));
    printf("exit: %d\n", info.si_status);
}

int main(void)
{
    ask_times();
    ask_process();
    ask_system();
    ask_sockets();
    ask_files();
    ask_signals();
    ask_children();
    return 0;
}
