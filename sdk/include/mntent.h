/* The lines of /etc/fstab and /proc/mounts. */
#ifndef _MNTENT_H
#define _MNTENT_H
#include <stdio.h>
#ifdef __cplusplus
extern "C" {
#endif
#define MOUNTED "/etc/mtab"
#define MNTTAB "/etc/fstab"
#define MNTTYPE_IGNORE "ignore"
#define MNTTYPE_NFS "nfs"
#define MNTTYPE_SWAP "swap"
#define MNTOPT_DEFAULTS "defaults"
#define MNTOPT_RO "ro"
#define MNTOPT_RW "rw"
#define MNTOPT_SUID "suid"
#define MNTOPT_NOSUID "nosuid"
#define MNTOPT_NOAUTO "noauto"
struct mntent {
    char *mnt_fsname, *mnt_dir, *mnt_type, *mnt_opts;
    int mnt_freq, mnt_passno;
};
FILE *setmntent(const char *path, const char *mode);
struct mntent *getmntent(FILE *file);
struct mntent *getmntent_r(FILE *file, struct mntent *entry, char *bytes, int count);
int addmntent(FILE *file, const struct mntent *entry);
int endmntent(FILE *file);
char *hasmntopt(const struct mntent *entry, const char *option);
#ifdef __cplusplus
}
#endif
#endif
