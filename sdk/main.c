/* What is done around main: constructors before it, and behind it exit, which runs destructors and writes out stdio. */
#include <stdlib.h>
#include <unistd.h>

extern void __libc_init_array(void);
extern void __libc_fini_array(void);

void *__dso_handle = &__dso_handle; /* a C++ destructor is registered under it */

void __flat_main(int argc, char **argv, char **envp, int (*main)(int, char **, char **))
{
    environ = envp;
    atexit(__libc_fini_array);
    __libc_init_array();
    exit(main(argc, argv, envp));
}
