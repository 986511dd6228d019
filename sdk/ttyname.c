/* ttyname and ttyname_r: the device of /dev that a descriptor is. */
#include <dirent.h>
#include <errno.h>
#include <stdio.h>
#include <string.h>
#include <sys/stat.h>
#include <unistd.h>

int ttyname_r(int fd, char *name, size_t size)
{
    struct stat terminal, device;
    if (!isatty(fd))
        return errno;
    if (fstat(fd, &terminal) == -1)
        return errno;
    DIR *folder = opendir("/dev");
    if (!folder)
        return errno;
    int error = ENODEV;
    for (struct dirent *entry; error == ENODEV && (entry = readdir(folder));) {
        char path[5 + sizeof entry->d_name];
        sprintf(path, "/dev/%s", entry->d_name);
        if (stat(path, &device) == -1 || !S_ISCHR(device.st_mode) || device.st_rdev != terminal.st_rdev)
            continue;
        error = strlen(path) < size ? 0 : ERANGE;
        if (!error)
            strcpy(name, path);
    }
    closedir(folder);
    return error;
}

char *ttyname(int fd)
{
    static char name[261];
    int error = ttyname_r(fd, name, sizeof name);
    if (!error)
        return name;
    errno = error;
    return 0;
}
