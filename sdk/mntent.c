/* The lines of /etc/fstab and /proc/mounts, whose blanks and backslashes are written by their octal numbers. */
#include <mntent.h>
#include <stdlib.h>
#include <string.h>

FILE *setmntent(const char *path, const char *mode)
{
    return fopen(path, mode);
}

int endmntent(FILE *file)
{
    if (file)
        fclose(file);
    return 1;
}

/* The next word of `*at`, with its escapes taken back. */
static char *word(char **at)
{
    char *from = *at + strspn(*at, " \t"), *to = from, *begin = from;
    for (; *from && !strchr(" \t\n", *from); from++, to++) {
        int high = from[0] == '\\' ? from[1] - '0' : -1;
        if (high >= 0 && high <= 3 && from[2] >= '0' && from[2] <= '7' && from[3] >= '0' && from[3] <= '7') {
            *to = (char)(high << 6 | (from[2] - '0') << 3 | (from[3] - '0'));
            from += 3;
        } else {
            *to = *from;
        }
    }
    *at = *from ? from + 1 : from;
    *to = 0;
    return begin;
}

struct mntent *getmntent_r(FILE *file, struct mntent *entry, char *bytes, int count)
{
    while (fgets(bytes, count, file)) {
        char *at = bytes;
        char *begin = at + strspn(at, " \t");
        if (!*begin || *begin == '#' || *begin == '\n')
            continue;
        entry->mnt_fsname = word(&at);
        entry->mnt_dir = word(&at);
        entry->mnt_type = word(&at);
        entry->mnt_opts = word(&at);
        entry->mnt_freq = atoi(word(&at));
        entry->mnt_passno = atoi(word(&at));
        return entry;
    }
    return 0;
}

struct mntent *getmntent(FILE *file)
{
    static struct mntent entry;
    static char bytes[1024];
    return getmntent_r(file, &entry, bytes, sizeof bytes);
}

static void written(FILE *file, const char *text, char end)
{
    for (; *text; text++) {
        if (strchr(" \t\n\\", *text))
            fprintf(file, "\\%03o", *text);
        else
            putc(*text, file);
    }
    putc(end, file);
}

int addmntent(FILE *file, const struct mntent *entry)
{
    if (fseek(file, 0, SEEK_END))
        return 1;
    written(file, entry->mnt_fsname, ' ');
    written(file, entry->mnt_dir, ' ');
    written(file, entry->mnt_type, ' ');
    written(file, entry->mnt_opts, ' ');
    fprintf(file, "%d %d\n", entry->mnt_freq, entry->mnt_passno);
    return fflush(file) ? 1 : 0;
}

char *hasmntopt(const struct mntent *entry, const char *option)
{
    size_t size = strlen(option);
    for (char *at = entry->mnt_opts; (at = strstr(at, option)); at += size)
        if ((at == entry->mnt_opts || at[-1] == ',') && (!at[size] || at[size] == ',' || at[size] == '='))
            return at;
    return 0;
}
