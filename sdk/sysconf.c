/* What is fixed of the machine of flatc, and what the kernel tells: sysconf, pathconf and fpathconf. */
#include <errno.h>
#include <sys/resource.h>
#include <sys/sysinfo.h>
#include <unistd.h>

static long unknown(void)
{
    errno = EINVAL;
    return -1;
}

/* So many pages of the machine's memory. */
static long pages(int free)
{
    struct sysinfo info;
    if (sysinfo(&info) == -1)
        return -1;
    return (free ? info.freeram : info.totalram) / 4096 * info.mem_unit;
}

long sysconf(int name)
{
    switch (name) {
    case _SC_ARG_MAX: return 1048576;
    case _SC_CHILD_MAX: return 64;
    case _SC_CLK_TCK: return 100;
    case _SC_OPEN_MAX: return getdtablesize();
    case _SC_PAGESIZE: return 4096;
    case _SC_NPROCESSORS_CONF:
    case _SC_NPROCESSORS_ONLN: return 1;
    case _SC_IOV_MAX: return 1024;
    case _SC_NGROUPS_MAX: return 65536;
    case _SC_PHYS_PAGES: return pages(0);
    case _SC_AVPHYS_PAGES: return pages(1);
    default: return unknown();
    }
}

int getpagesize(void)
{
    return 4096;
}

static long of_path(int name)
{
    switch (name) {
    case _PC_LINK_MAX: return 1;
    case _PC_NAME_MAX: return 255;
    case _PC_PATH_MAX:
    case _PC_PIPE_BUF: return 4096;
    case _PC_NO_TRUNC: return 1;
    case _PC_FILESIZEBITS: return 32;
    default: return unknown();
    }
}

long pathconf(const char *path, int name)
{
    return access(path, F_OK) == 0 ? of_path(name) : -1;
}

long fpathconf(int fd, int name)
{
    return lseek(fd, 0, SEEK_CUR) >= 0 || errno == ESPIPE ? of_path(name) : -1;
}
