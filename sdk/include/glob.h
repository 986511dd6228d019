/* Newlib's, with the name that POSIX has for a pattern that nothing matches. */
#include_next <glob.h>
#ifndef GLOB_NOMATCH
#define GLOB_NOMATCH (-3)
#define GLOB_ABORTED GLOB_ABEND
#endif
