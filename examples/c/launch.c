/* A small shell: reads a line at a time, starts the program that it names by vfork and execv, waits for it, and says how it
   ended. `list` shows a folder. */
#include <dirent.h>
#include <errno.h>
#include <stdio.h>
#include <string.h>
#include <sys/wait.h>
#include <unistd.h>

enum { WORDS = 8 };

static void list(const char *path)
{
    DIR *folder = opendir(path);
    if (!folder) {
        printf("%s: %s\n", path, strerror(errno));
        return;
    }
    for (struct dirent *entry; (entry = readdir(folder));)
        printf("%s ", entry->d_name);
    printf("\n");
    closedir(folder);
}

static void launch(char **words)
{
    volatile int failed = 0; /* the child runs in this very memory */
    fflush(stdout);
    pid_t child = vfork();
    if (child == 0) {
        execv(words[0], words);
        failed = errno;
        _exit(127);
    }
    int status = 0;
    pid_t got = waitpid(child, &status, 0);
    if (child == -1 || got != child)
        printf("%s: %s\n", words[0], strerror(errno));
    else if (failed)
        printf("%s: %s\n", words[0], strerror(failed));
    else if (WIFEXITED(status))
        printf("%s: exit %d\n", words[0], WEXITSTATUS(status));
    else
        printf("%s: signal %d\n", words[0], WTERMSIG(status));
}

int main(void)
{
    setvbuf(stdout, 0, _IOLBF, 0);
    char line[80];
    while (fgets(line, sizeof line, stdin)) {
        char *words[WORDS + 1];
        int count = 0;
        for (char *word = strtok(line, " \n"); word && count < WORDS; word = strtok(0, " \n"))
            words[count++] = word;
        words[count] = 0;
        if (!count)
            continue;
        if (!strcmp(words[0], "list") && count > 1)
            list(words[1]);
        else
            launch(words);
    }
    printf("no child is left: %d\n", waitpid(-1, 0, 0) == -1 && errno == ECHILD);
    return 0;
}
