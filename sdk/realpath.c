/* realpath: the names of a path that is there, from the root on. The machine of flatc has no symbolic links; under Linux they
   stand in the answer as they are. */
#include <errno.h>
#include <limits.h>
#include <stdlib.h>
#include <string.h>
#include <unistd.h>

/* One name more behind the `length` bytes of `to`: how long it is then, or 0 if that is too long. */
static size_t with_name(char *to, size_t length, const char *name, size_t size)
{
    if (size == 1 && name[0] == '.')
        return length;
    if (size == 2 && name[0] == '.' && name[1] == '.') {
        while (length > 1 && to[--length] != '/')
            ;
        return length ? length : 1;
    }
    if (length + 1 + size >= PATH_MAX)
        return 0;
    if (length > 1)
        to[length++] = '/';
    memcpy(to + length, name, size);
    return length + size;
}

static int walked(const char *path, char *to)
{
    size_t length = 1;
    strcpy(to, "/");
    if (path[0] != '/') {
        if (!getcwd(to, PATH_MAX))
            return -1;
        length = strlen(to);
    }
    while (*path) {
        size_t size = strcspn(path, "/");
        if (size)
            length = with_name(to, length, path, size);
        if (!length) {
            errno = ENAMETOOLONG;
            return -1;
        }
        path += size + strspn(path + size, "/");
    }
    to[length] = 0;
    return 0;
}

char *realpath(const char *path, char *result)
{
    if (!path) {
        errno = EINVAL;
        return 0;
    }
    char *to = result ? result : malloc(PATH_MAX);
    if (!to)
        return 0;
    if (access(path, F_OK) == 0 && walked(path, to) == 0)
        return to;
    if (!result)
        free(to);
    return 0;
}
