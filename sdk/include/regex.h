/* Newlib's, behind the types that it takes for granted. */
#include <sys/types.h>
#include_next <regex.h>
