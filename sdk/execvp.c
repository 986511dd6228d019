/* execvp: a name without a slash is looked for in the folders of PATH, and in /bin and /usr/bin where there is none. Newlib's
   looks nowhere then. A file that the kernel doesn't know is a script of /bin/sh. */
#define _GNU_SOURCE
#include <errno.h>
#include <limits.h>
#include <stdlib.h>
#include <string.h>
#include <unistd.h>

static void try(const char *path, char *const words[], char *const environment[])
{
    execve(path, words, environment);
    if (errno != ENOEXEC)
        return;
    size_t count = 0;
    while (words[count])
        count++;
    char *script[count + 3];
    memcpy(script + 1, words, (count + 1) * sizeof *words);
    script[0] = "sh";
    script[1] = (char *)path;
    script[2] = count ? script[2] : 0;
    execve("/bin/sh", script, environment);
}

int execvpe(const char *name, char *const words[], char *const environment[])
{
    const char *folders = getenv("PATH");
    int refused = 0;
    if (strchr(name, '/') || !*name) {
        if (*name)
            try(name, words, environment);
        else
            errno = ENOENT;
        return -1;
    }
    folders = folders ? folders : "/bin:/usr/bin";
    for (const char *folder = folders, *end; folder; folder = *end ? end + 1 : 0) {
        char path[PATH_MAX];
        end = folder + strcspn(folder, ":");
        size_t size = end - folder;
        if (size + strlen(name) + 2 > sizeof path)
            continue;
        memcpy(path, folder, size);
        if (size)
            path[size++] = '/';
        strcpy(path + size, name);
        try(path, words, environment);
        if (errno == EACCES)
            refused = 1;
        else if (errno != ENOENT && errno != ENOTDIR)
            return -1;
    }
    errno = refused ? EACCES : ENOENT;
    return -1;
}

int execvp(const char *name, char *const words[])
{
    return execvpe(name, words, environ);
}
