/* Counts lines, words and bytes of files, or of standard input where none is named. */
#include <ctype.h>
#include <errno.h>
#include <stdio.h>
#include <string.h>

struct count {
    long lines, words, bytes;
};

static struct count count_of(FILE *file)
{
    struct count count = {0, 0, 0};
    int c, within = 0;
    while ((c = getc(file)) != EOF) {
        count.bytes++;
        count.lines += c == '\n';
        count.words += !isspace(c) && !within;
        within = !isspace(c);
    }
    return count;
}

static void say(struct count count, const char *name)
{
    printf("%7ld %7ld %7ld%s%s\n", count.lines, count.words, count.bytes, *name ? " " : "", name);
}

int main(int argc, char **argv)
{
    struct count all = {0, 0, 0};
    int failed = 0;
    if (argc < 2)
        say(count_of(stdin), "");
    for (int i = 1; i < argc; i++) {
        FILE *file = fopen(argv[i], "r");
        if (!file) {
            printf("wc: %s: %s\n", argv[i], strerror(errno));
            failed = 1;
            continue;
        }
        struct count count = count_of(file);
        fclose(file);
        say(count, argv[i]);
        all.lines += count.lines;
        all.words += count.words;
        all.bytes += count.bytes;
    }
    if (argc > 2)
        say(all, "total");
    return failed;
}
