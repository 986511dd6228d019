/* Writes so many numbered lines, lines COUNT [WIDTH], with spaces before the numbers up to a width, and ends with 1 where it
   can't. A pipe whose reading end is closed is EPIPE; under Linux a signal (SIGPIPE) ends the program there. */
#include <errno.h>
#include <stdio.h>
#include <stdlib.h>
#include <string.h>

int main(int argc, char **argv)
{
    int count = argc > 1 ? atoi(argv[1]) : 10, width = argc > 2 ? atoi(argv[2]) : 1;
    for (int i = 1; i <= count; i++)
        if (printf("line %*d\n", width, i) < 0) {
            fprintf(stderr, "lines: %s\n", strerror(errno));
            return 1;
        }
    return 0;
}
