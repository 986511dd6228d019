/* Folders and descriptors: mkdir, opendir and readdir, append, lseek, dup2, unlink and rmdir. */
#include <dirent.h>
#include <errno.h>
#include <fcntl.h>
#include <stdio.h>
#include <stdlib.h>
#include <string.h>
#include <sys/stat.h>
#include <unistd.h>

static int by_name(const void *a, const void *b)
{
    return strcmp(*(char *const *)a, *(char *const *)b);
}

static void list(const char *path)
{
    char *names[16];
    int n = 0;
    struct dirent *entry;
    DIR *dir = opendir(path);
    if (!dir) {
        printf("%s: %s\n", path, strerror(errno));
        return;
    }
    while (n < 16 && (entry = readdir(dir)))
        if (entry->d_name[0] != '.')
            names[n++] = strdup(entry->d_name);
    closedir(dir);
    qsort(names, n, sizeof *names, by_name);
    printf("%s:", path);
    for (int i = 0; i < n; i++)
        printf(" %s", names[i]);
    printf("\n");
}

int main(void)
{
    char text[32] = "";
    printf("mkdir: %d\n", mkdir("made", 0777));
    printf("mkdir again: %d", mkdir("made", 0777));
    printf(" %s\n", strerror(errno));
    for (int i = 0; i < 12; i++) {
        char name[32];
        sprintf(name, "made/file%02d", i);
        FILE *file = fopen(name, "w");
        fprintf(file, "%d", i);
        fclose(file);
    }
    list("made");
    list("made/file03");
    list("nowhere");
    FILE *file = fopen("made/file07", "a");
    fputs(" and more", file);
    fclose(file);
    int fd = open("made/file07", O_RDONLY);
    printf("lseek: %ld\n", (long)lseek(fd, -4, SEEK_END));
    printf("dup2: %d, %d", dup2(fd, 9), dup2(fd, fd));
    printf(", %d", dup2(20, 20));
    printf(" %s\n", strerror(errno));
    close(fd);
    printf("read: %d %s\n", (int)read(9, text, sizeof text - 1), text);
    printf("a terminal: %d\n", isatty(9));
    printf("rmdir: %d", rmdir("made"));
    printf(" %s\n", strerror(errno));
    for (int i = 0; i < 12; i++) {
        char name[32];
        sprintf(name, "made/file%02d", i);
        unlink(name);
    }
    list("made");
    printf("rmdir: %d\n", rmdir("made"));
    list("made");
    return 0;
}
