/* popen and pclose: a pipe to /bin/sh -c COMMAND. Newlib's own can't serve: its child goes through a list by a variable of its
   parent, whose memory a child of vfork has. Here both ends close at an execve, so no child holds an end that isn't its own. */
#define _GNU_SOURCE
#include <errno.h>
#include <fcntl.h>
#include <stdio.h>
#include <stdlib.h>
#include <sys/wait.h>
#include <unistd.h>

struct stream {
    struct stream *next;
    FILE *file;
    pid_t child;
};

static struct stream *streams;

static pid_t started(const char *command, int end, int wanted)
{
    pid_t child = vfork();
    if (child == 0) {
        if (end == wanted)
            fcntl(end, F_SETFD, 0);
        else
            dup2(end, wanted);
        execl("/bin/sh", "sh", "-c", command, (char *)0);
        _exit(127);
    }
    return child;
}

static struct stream *opened(const char *command, int reads)
{
    int ends[2];
    struct stream *stream = malloc(sizeof *stream);
    if (!stream)
        return 0;
    if (pipe2(ends, O_CLOEXEC) == 0) {
        stream->file = fdopen(ends[!reads], reads ? "r" : "w");
        stream->child = stream->file ? started(command, ends[reads], reads) : -1;
        close(ends[reads]);
        if (stream->child != -1)
            return stream;
        if (stream->file)
            fclose(stream->file);
        else
            close(ends[!reads]);
    }
    free(stream);
    return 0;
}

FILE *popen(const char *command, const char *type)
{
    if ((*type != 'r' && *type != 'w') || (type[1] && (type[1] != 'e' || type[2]))) {
        errno = EINVAL;
        return 0;
    }
    struct stream *stream = opened(command, *type == 'r');
    if (!stream)
        return 0;
    stream->next = streams;
    streams = stream;
    return stream->file;
}

int pclose(FILE *file)
{
    int status;
    struct stream **at = &streams;
    while (*at && (*at)->file != file)
        at = &(*at)->next;
    struct stream *stream = *at;
    if (!stream) {
        errno = EINVAL;
        return -1;
    }
    *at = stream->next;
    pid_t child = stream->child;
    free(stream);
    fclose(file);
    return waitpid(child, &status, 0) == -1 ? -1 : status;
}
