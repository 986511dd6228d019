/* What C libraries of Linux call so; newlib's is <sys/features.h>. */
#include <sys/features.h>
