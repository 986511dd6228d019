/* What a filesystem has room for, as statfs64 of the kernel tells it. */
#ifndef _SYS_VFS_H
#define _SYS_VFS_H
#ifdef __cplusplus
extern "C" {
#endif
struct statfs {
    unsigned long f_type, f_bsize;
    unsigned long long f_blocks, f_bfree, f_bavail, f_files, f_ffree;
    struct {
        int __val[2];
    } f_fsid;
    unsigned long f_namelen, f_frsize, f_flags, f_spare[4];
};
int statfs(const char *path, struct statfs *result);
int fstatfs(int fd, struct statfs *result);
#ifdef __cplusplus
}
#endif
#endif
