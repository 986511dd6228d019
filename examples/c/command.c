/* system and popen: /bin/sh -c with a line, which the kit starts by vfork. In the machine it is shell.c under that name. */
#include <stdio.h>
#include <stdlib.h>
#include <sys/wait.h>

static void say(const char *call, int status)
{
    if (WIFEXITED(status))
        printf("%s: exit %d\n", call, WEXITSTATUS(status));
    else
        printf("%s: signal %d\n", call, WTERMSIG(status));
}

int main(void)
{
    setvbuf(stdout, 0, _IOLBF, 0);
    char line[64];
    printf("a shell: %d\n", system(0) != 0);
    say("system", system("./wc poem.txt"));
    say("system", system("./lines 50 | ./match nowhere"));
    FILE *file = popen("./lines 30 | ./match 2", "r");
    int count = 0;
    while (fgets(line, sizeof line, file)) {
        count++;
        if (count == 3)
            printf("%s", line);
    }
    printf("%d lines\n", count);
    say("pclose", pclose(file));
    file = popen("./wc", "w");
    for (int i = 0; i < 1000; i++)
        fprintf(file, "word %d\n", i);
    say("pclose", pclose(file));
    return 0;
}
