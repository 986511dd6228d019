/* stdio: formats with numbers of all kinds, and the arguments of the start line. */
#include <stdio.h>

int main(int argc, char **argv)
{
    printf("hello from %s, with %d arguments\n", argv[0], argc - 1);
    for (int i = 1; i < argc; i++)
        printf("%d: %-8s|\n", i, argv[i]);
    printf("%lld %08x %.3f %g\n", 1LL << 40, 48879, 3.14159, 1e-7);
    return 0;
}
