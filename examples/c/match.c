/* Writes the lines of standard input that contain a text, but no more than so many: match TEXT [COUNT]. It ends with the last
   of these, though more input may come. */
#include <limits.h>
#include <stdio.h>
#include <stdlib.h>
#include <string.h>

int main(int argc, char **argv)
{
    char line[256];
    const char *text = argc > 1 ? argv[1] : "";
    int most = argc > 2 ? atoi(argv[2]) : INT_MAX, found = 0;
    while (found < most && fgets(line, sizeof line, stdin))
        if (strstr(line, text)) {
            fputs(line, stdout);
            found++;
        }
    return !found;
}
