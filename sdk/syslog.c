/* syslog: a message goes to the daemon behind the socket /dev/log. Where there is none it goes to /dev/console if LOG_CONS says so,
   and with LOG_PERROR to standard error too. */
#include <fcntl.h>
#include <stdio.h>
#include <sys/socket.h>
#include <sys/un.h>
#include <syslog.h>
#include <unistd.h>

static const char *name = "syslog";
static int options, mask = 0xff, facilities = LOG_USER;

void openlog(const char *given, int chosen, int facility)
{
    facilities = facility ? facility : facilities;
    name = given ? given : name;
    options = chosen;
}

void closelog(void)
{
}

int setlogmask(int wanted)
{
    int before = mask;
    mask = wanted ? wanted : mask;
    return before;
}

static int heard(const char *line, int size)
{
    static const struct sockaddr_un daemon = {AF_UNIX, "/dev/log"};
    int fd = socket(AF_UNIX, SOCK_DGRAM | SOCK_CLOEXEC, 0);
    if (fd == -1)
        return 0;
    int sent = connect(fd, (const struct sockaddr *)&daemon, sizeof daemon) == 0 && send(fd, line, size, MSG_NOSIGNAL) == size;
    close(fd);
    return sent;
}

void vsyslog(int priority, const char *format, va_list rest)
{
    char line[1024];
    const int room = sizeof line - 1;
    if (!(mask & LOG_MASK(LOG_PRI(priority))))
        return;
    int all = priority & LOG_FACMASK ? priority : priority | facilities;
    int prefix = snprintf(line, room, "<%d>", all);
    int size = prefix + snprintf(line + prefix, room - prefix, options & LOG_PID ? "%s[%d]: " : "%s: ", name, (int)getpid());
    size = size < room ? size + vsnprintf(line + size, room - size, format, rest) : room;
    size = size < room ? size : room - 1;
    int told = heard(line, size);
    if (line[size - 1] != '\n')
        line[size++] = '\n';
    if (options & LOG_PERROR)
        write(2, line + prefix, size - prefix);
    int console = !told && options & LOG_CONS ? open("/dev/console", O_WRONLY | O_NOCTTY) : -1;
    if (console != -1) {
        write(console, line + prefix, size - prefix);
        close(console);
    }
}

void syslog(int priority, const char *format, ...)
{
    va_list rest;
    va_start(rest, format);
    vsyslog(priority, format, rest);
    va_end(rest);
}
