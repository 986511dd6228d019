/* 221 execve(path, arguments, environment). A child of vfork may call it: its frame lies below its parent's. */
#include <unistd.h>
#include "kernel.h"

int _execve(const char *path, char *const arguments[], char *const environment[])
{
    return __flat_answer(kernel3(221, (long)path, (long)arguments, (long)environment));
}
