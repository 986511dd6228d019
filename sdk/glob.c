/* glob as POSIX has it: a pattern that nothing matches is an error. Newlib's is built as __flat_glob, and returns 0 then. */
#include <glob.h>

int __flat_glob(const char *pattern, int flags, int (*refused)(const char *, int), glob_t *result);

int glob(const char *restrict pattern, int flags, int (*refused)(const char *, int), glob_t *restrict result)
{
    int before = flags & GLOB_APPEND ? result->gl_pathc : 0;
    int reply = __flat_glob(pattern, flags, refused, result);
    return reply == 0 && result->gl_pathc == before ? GLOB_NOMATCH : reply;
}
